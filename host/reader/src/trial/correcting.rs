//! Makes lines on correction tapes: pairs of tapes whose numbers meet, repeat, stand on one alone or are missing, sound and refused.

use super::chance::Chance;
use super::corrected::{Corrected, Pair};
use super::damage;
use super::inputs::{self, bad_text, strange_edition, Ask, Input};
use super::lines::{make_sayable, told, Line, Posed};
use super::profiles;
use super::programs::{self, Plan, Tape};
use crate::index::MARK;
use crate::reading::Block;
use crate::rows::{punched, LF};
use crate::specification::Specification;
use crate::Refusal;

/// A tape of more rows is not asked for twice in one line.
const MOST_TWICE: usize = 2_000;

/// Number and place, where they are known from the making.
pub(super) type Known = Option<(u64, u64)>;

fn posed(corrected: Corrected, known: Known) -> Posed {
    Posed { line: Line::Corrected(Box::new(corrected)), known }
}

/// About `size` lines on two tapes.
pub fn corrections(seed: u64, size: usize) -> Vec<Posed> {
    let chance = &mut Chance::new(seed);
    let mut lines = Vec::with_capacity(size + 20);
    while lines.len() < size {
        let made = Made::drawn(chance);
        match chance.below(8) {
            0 => {
                let (pair, known) = made.other_specification(chance);
                lines.push(made.either(chance, pair, known));
            }
            1 | 2 => made.damaged(chance, &mut lines),
            _ => made.sound(chance, &mut lines),
        }
        lines.push(any_numbers(chance));
    }
    lines
}

/// Whether the correction is harmed, and whether the master is.
pub(super) const HARMED: [[bool; 2]; 3] = [[true, false], [false, true], [true, true]];

/// Two sound tapes, and what is on them.
pub(super) struct Made {
    pub plan: Plan,
    pub pair: Pair,
    /// the correction's blocks, and the master's
    blocks: [Vec<Block>; 2],
    /// their numbers, with the mark for a missing one
    numbers: [Vec<u64>; 2],
}

impl Made {
    pub fn drawn(chance: &mut Chance) -> Made {
        let mut plan = programs::plan(chance);
        make_sayable(&mut plan.specification);
        let shared = pool(chance, &plan, 4);
        let tapes = [5, 8].map(|most| {
            let own = pool(chance, &plan, 3);
            // from those that may be on both tapes, and those that are hardly on the other
            let numbers = if chance.happens(1, 8) { own } else { [&shared[..], &own].concat() };
            programs::tape_of(chance, &plan, most, &numbers)
        });
        Made::of(plan, tapes)
    }

    /// A correction and a master, both of that plan.
    pub fn of(plan: Plan, [correction, master]: [Tape; 2]) -> Made {
        let numbers = [numbers_of(&correction), numbers_of(&master)];
        let pair = Pair { specification: plan.specification.clone(), correction: correction.rows, master: master.rows };
        Made { plan, pair, blocks: [correction.blocks, master.blocks], numbers }
    }

    fn stands(&self, number: u64) -> bool {
        number != MARK && self.numbers.iter().any(|numbers| numbers.contains(&number))
    }

    /// The corrected listing: the master's blocks with the altered ones for them, and those whose numbers are not on it.
    pub fn listing(&self) -> Vec<&Block> {
        let [correction, master] = &self.numbers;
        let first = |numbers: &[u64], number| numbers.iter().position(|&other| number != MARK && other == number);
        let altered = |at: usize| first(correction, master[at]).filter(|_| first(master, master[at]) == Some(at));
        let only = |&at: &usize| first(correction, correction[at]) == Some(at) && first(master, correction[at]).is_none();
        let [new, old] = &self.blocks;
        let standing = (0..old.len()).map(|at| altered(at).map_or(&old[at], |altered| &new[altered]));
        standing.chain((0..new.len()).filter(only).map(|at| &new[at])).collect()
    }

    fn entries(&self) -> u64 {
        self.listing().len() as u64
    }

    /// A number on either tape, or on none, or the mark.
    fn some_number(&self, chance: &mut Chance) -> u64 {
        let there = self.numbers.concat();
        if there.is_empty() || chance.happens(1, 4) {
            return chance.one_of(&[0, 1, 8, 999, 1_000, MARK - 1, MARK]);
        }
        chance.one_of(&there)
    }

    /// An entry before the end, at it or behind it.
    fn some_entry(&self, chance: &mut Chance) -> u64 {
        let entries = self.entries();
        match chance.below(8) {
            0 => entries,
            1 => entries + 1 + chance.below(3) as u64,
            2 => chance.one_of(&[entries.saturating_sub(1), 1 << 32, u64::MAX]),
            _ => chance.below(entries as usize + 1) as u64,
        }
    }

    fn sound(&self, chance: &mut Chance, lines: &mut Vec<Posed>) {
        let Made { pair, numbers, .. } = self;
        for _ in 0..2 {
            let number = self.some_number(chance);
            let known = if self.stands(number) { (0, 0) } else { (25, 0) };
            lines.push(posed(Corrected::Rows { pair: pair.clone(), number }, Some(known)));
            let (n, entries) = (self.some_entry(chance), self.entries());
            let known = if n < entries { (0, 0) } else { (15, entries) };
            lines.push(posed(Corrected::Entry { pair: pair.clone(), n }, Some(known)));
            lines.push(posed(Corrected::Kept { pair: pair.clone(), numbers: numbers.clone(), n }, Some(known)));
        }
    }

    /// Either is asked, whatever it would answer of other tapes.
    fn either(&self, chance: &mut Chance, pair: Pair, known: Known) -> Posed {
        if chance.happens(1, 2) {
            return posed(Corrected::Rows { pair, number: self.some_number(chance) }, known);
        }
        posed(Corrected::Entry { pair, n: self.some_entry(chance) }, known)
    }

    /// The correction is damaged, or the master, or both.
    fn damaged(&self, chance: &mut Chance, lines: &mut Vec<Posed>) {
        for which in HARMED {
            let (pair, known) = self.harmed(chance, which);
            lines.push(self.either(chance, pair, known));
        }
    }

    /// The pair with those tapes damaged.
    pub fn harmed(&self, chance: &mut Chance, [first, second]: [bool; 2]) -> (Pair, Known) {
        let mut pair = self.pair.clone();
        let at_first = first.then(|| self.harm(chance, &mut pair.correction));
        let at_second = second.then(|| self.harm(chance, &mut pair.master));
        // the correction's own refusal comes first
        (pair, at_first.or(at_second).flatten())
    }

    /// One row with an odd number of holes, which is known to refuse the tape, or any other damage.
    fn harm(&self, chance: &mut Chance, tape: &mut Vec<u8>) -> Known {
        match chance.below(4) {
            0 => {
                let at = chance.below(tape.len());
                tape[at] ^= damage::holes(chance, 1);
                return Some((5, at as u64));
            }
            1 => *tape = programs::slipped_rows(chance, &self.plan, 8),
            _ => damage::tape(chance, tape),
        }
        None
    }

    /// An edition, a shorthand or a profile that is refused, most often, before the tapes are.
    pub fn other_specification(&self, chance: &mut Chance) -> (Pair, Known) {
        let mut pair = self.pair.clone();
        if chance.happens(1, 2) {
            (pair, _) = self.harmed(chance, [true, true]);
        }
        let known = misjudge(chance, &self.plan, &mut pair.specification);
        (pair, known.map(told))
    }
}

/// Makes of a sound specification one that is refused, most often; with what, where that is known from the making.
pub(super) fn misjudge(chance: &mut Chance, plan: &Plan, specification: &mut Specification) -> Option<Refusal> {
    let mut known = None;
    match chance.below(4) {
        0 => specification.edition = strange_edition(chance),
        1 => specification.shorthand = bad_text(chance, specification.shorthand.clone()),
        _ => {
            let (profile, refusal) = profiles::faulty(chance, plan);
            specification.profile = profile;
            known = Some(refusal);
        }
    }
    make_sayable(specification);
    known
}

/// One to `most` numbers that the digits of the plan can say.
fn pool(chance: &mut Chance, plan: &Plan, most: usize) -> Vec<u64> {
    let end = 10u64.pow(plan.sequence as u32);
    (0..1 + chance.below(most))
        .map(|_| match chance.below(6) {
            0 => 0,
            1 => end - 1,
            2 | 3 => 1 + chance.below(9) as u64,
            _ => chance.number() % end,
        })
        .collect()
}

/// As an index of the tape has them.
fn numbers_of(tape: &Tape) -> Vec<u64> {
    tape.blocks.iter().map(|block| block.opening.number().unwrap_or(MARK)).collect()
}

/// An entry by numbers that need not be any tape's.
fn any_numbers(chance: &mut Chance) -> Posed {
    let few = [0, 1, 2, 7, 999_999_999, MARK - 1, MARK, MARK];
    let numbers = [5, 8].map(|most| (0..chance.below(most)).map(|_| chance.one_of(&few)).collect::<Vec<u64>>());
    let most = numbers[0].len() + numbers[1].len();
    let n = if chance.happens(1, 20) { u64::MAX } else { chance.below(most + 1) as u64 };
    posed(Corrected::Indexed { numbers, n }, None)
}

/// About `size` lines on tapes and specifications of all kinds, each as correction, as master or as both.
pub fn refused(seed: u64, size: usize) -> Vec<Posed> {
    let chance = &mut Chance::new(seed);
    inputs::tapes(seed, size).into_iter().filter_map(|input| beside_another(chance, input)).collect()
}

fn beside_another(chance: &mut Chance, input: Input) -> Option<Posed> {
    let Ask::Count { mut specification, tape } = input.ask else { return None };
    make_sayable(&mut specification);
    // on a head alone nothing is refused, so that the other tape's refusal is the one
    let known = input.known.filter(|known| known.number != 0).map(|known| (known.number, known.place));
    let head = vec![punched(b'%'), punched(LF)];
    let pair = |correction, master, specification: Specification| Pair { specification, correction, master };
    let pair = match chance.below(5) {
        0 if tape.len() < MOST_TWICE => pair(tape.clone(), tape, specification),
        1 | 2 => pair(tape, head, specification),
        _ => pair(head, tape, specification),
    };
    let line = if chance.happens(1, 2) {
        Corrected::Rows { pair, number: chance.one_of(&[0, 1, 999, MARK]) }
    } else {
        Corrected::Entry { pair, n: chance.below(5) as u64 }
    };
    Some(posed(line, known))
}

#[cfg(test)]
mod tests {
    use super::*;
    use crate::corrections::Tape;

    /// Number and place are as they were made, and an entry by the tapes' numbers is the one by the tapes.
    #[test]
    fn pairs_are_answered_as_they_were_made() {
        let mut kept = 0;
        let mut refused_first = 0;
        for Posed { line, known } in corrections(7, 6_000).into_iter().chain(refused(8, 2_000)) {
            let Line::Corrected(corrected) = line else { unreachable!() };
            let reply = corrected.answer();
            assert!(known.is_none_or(|known| known == (reply.number, reply.place)), "{}", corrected.text().escape_ascii());
            refused_first += u64::from(reply.refused == Some(Tape::Correction));
            let Corrected::Kept { numbers, n, .. } = *corrected else { continue };
            assert_eq!(Corrected::Indexed { numbers, n }.answer().to_string(), reply.to_string());
            kept += 1;
        }
        assert!(kept > 1_000 && refused_first > 500, "{kept} {refused_first}");
    }

    /// The pairs have what the rules speak of.
    #[test]
    fn what_stands_on_the_pairs() {
        let chance = &mut Chance::new(9);
        let [mut replaced, mut again, mut added, mut bare] = [0; 4];
        for _ in 0..300 {
            let [correction, master] = Made::drawn(chance).numbers;
            let first = |numbers: &[u64], at: usize| numbers.iter().position(|&number| number == numbers[at]) == Some(at);
            for (at, number) in master.iter().enumerate().filter(|(_, &number)| number != MARK) {
                replaced += usize::from(first(&master, at) && correction.contains(number));
                again += usize::from(!first(&master, at) && correction.contains(number));
            }
            added += correction.iter().filter(|number| **number != MARK && !master.contains(number)).count();
            bare += correction.iter().chain(&master).filter(|number| **number == MARK).count();
        }
        assert!([replaced, again, added, bare].iter().all(|&seen| seen > 30), "{replaced} {again} {added} {bare}");
    }
}
