//! Tapes with one slip where a block begins, or where one without a number goes on, whose number and place are known from the
//! making.
//!
//! Nothing here asks the reader: all before the slip is as on a sound tape.

use super::chance::Chance;
use super::programs::{self, any_character, Plan, Punch};
use crate::rows::{CR, DEL, HT, LF, NUL};
use crate::shorthand::Layout;
use crate::specification::Specification;
use crate::Refusal;

/// A tape with a slip.
pub(super) struct Slipped {
    /// what it is judged by, which is sound
    pub specification: Specification,
    pub tape: Vec<u8>,
    /// what it must be refused with
    pub refusal: Refusal,
}

/// What is wrong with a slip.
enum Fault {
    /// the refusal's number, and the row
    Row(u32, usize),
    /// the tape ends in the block
    Cut,
}

/// Makes a slip, behind "/" or not, and answers what is wrong with it; none where a tape of that plan can't have it.
type Slip = fn(&mut Punch, &Plan, bool) -> Option<Fault>;

const SLIPS: &[Slip] = &[neither_number_nor_word, neither_number_nor_word, begins_no_block, begins_no_word, too_few_digits];

/// A tape of either edition with one of the slips.
pub(super) fn slipped(chance: &mut Chance) -> Slipped {
    let slip = chance.one_of(SLIPS);
    loop {
        let plan = programs::plan(chance);
        let mut punch = Punch::begun(chance, 0);
        programs::blocks(&mut punch, &plan, 2);
        let skip = punch.skip();
        if let Some(fault) = slip(&mut punch, &plan, skip) {
            let refusal = fault.followed(&mut punch, &plan);
            return Slipped { specification: plan.specification, tape: punch.rows, refusal };
        }
    }
}

impl Fault {
    /// Punches what can't speak any more, and answers the refusal.
    fn followed(self, punch: &mut Punch, plan: &Plan) -> Refusal {
        match self {
            Fault::Row(number, place) => {
                programs::blocks(punch, plan, 2);
                Refusal::new(number, place)
            }
            Fault::Cut => {
                if punch.chance.happens(1, 2) {
                    punch.strew();
                }
                Refusal::new(14, punch.rows.len())
            }
        }
    }
}

/// In 2539 an end at once, or behind some tabs.
fn neither_number_nor_word(punch: &mut Punch, plan: &Plan, skip: bool) -> Option<Fault> {
    let tabs = punch.chance.below(most_tabs(plan) + 1);
    (0..tabs).for_each(|_| punch.character(HT));
    let begun = skip || tabs > 0;
    plan.is_newer().then(|| end_of_nothing(punch, plan, begun))
}

/// How many tabs may stand in a block.
fn most_tabs(plan: &Plan) -> usize {
    if plan.layout.has_tabs() {
        plan.items.len()
    } else {
        0
    }
}

/// LF, CR LF, CR and another row, CR and the tape's end or, in a block that has `begun`, the tape's end alone.
fn end_of_nothing(punch: &mut Punch, plan: &Plan, begun: bool) -> Fault {
    match punch.chance.below(8) {
        0 if begun => Fault::Cut,
        1 => {
            punch.character(CR);
            Fault::Cut
        }
        2 => {
            let own = put(punch, CR);
            let other = some_row(punch.chance, plan, |character| character != LF);
            punch.character(other);
            Fault::Row(10, own)
        }
        3 | 4 => {
            punch.character(CR);
            Fault::Row(9, put(punch, LF))
        }
        _ => Fault::Row(9, put(punch, LF)),
    }
}

/// Punches a character and answers at which row.
fn put(punch: &mut Punch, character: u8) -> usize {
    punch.character(character);
    punch.rows.len() - 1
}

/// A character that the third stage leaves and that `fits` takes: often an item's letter, or another telling one.
fn some_row(chance: &mut Chance, plan: &Plan, fits: impl Fn(u8) -> bool) -> u8 {
    loop {
        let character = match chance.below(4) {
            0 => any_character(chance),
            1 if !plan.items.is_empty() => plan.items[chance.below(plan.items.len())].0,
            _ => chance.one_of(&[HT, LF, CR, b'/', b':', b'N', b'%', b' ', b'+', b'-', b'0', b'X']),
        };
        if !matches!(character, NUL | DEL | b'(' | b')') && fits(character) {
            return character;
        }
    }
}

/// In 1057 all but N and ":", in 2539 not the first row of a word or an end either.
fn begins_no_block(punch: &mut Punch, plan: &Plan, skip: bool) -> Option<Fault> {
    let begins = |character| match character {
        b'N' | b':' => true,
        b'/' => !skip,
        _ if !plan.is_newer() => false,
        LF | CR => true,
        HT => most_tabs(plan) > 0,
        _ => !plan.layout.has_tabs() && plan.items.iter().any(|item| item.0 == character),
    };
    let other = some_row(punch.chance, plan, |character| !begins(character));
    Some(Fault::Row(9, put(punch, other)))
}

/// Behind the tabs of a block without number: neither the item's word nor the next tab nor an end.
fn begins_no_word(punch: &mut Punch, plan: &Plan, _: bool) -> Option<Fault> {
    let most = most_tabs(plan);
    if !plan.is_newer() || most == 0 {
        return None;
    }
    let tabs = 1 + punch.chance.below(most);
    (0..tabs).for_each(|_| punch.character(HT));
    let (due, _) = plan.items[tabs - 1];
    let stands = |character| match character {
        LF | CR => true,
        HT => tabs < most,
        _ if plan.layout == Layout::Tabs => matches!(character, b'0'..=b'9' | b'+' | b'-'),
        _ => character == due,
    };
    let other = some_row(punch.chance, plan, |character| !stands(character));
    Some(Fault::Row(10, put(punch, other)))
}

/// N or ":" with fewer digits than it has to have, often none.
fn too_few_digits(punch: &mut Punch, plan: &Plan, _: bool) -> Option<Fault> {
    let letter = punch.chance.one_of(b"N::");
    punch.character(letter);
    let digits = if punch.chance.happens(1, 2) { 0 } else { punch.chance.below(plan.sequence) };
    for _ in 0..digits {
        let digit = punch.chance.one_of(b"0123456789");
        punch.character(digit);
    }
    if punch.chance.happens(1, 8) {
        return Some(Fault::Cut);
    }
    let other = some_row(punch.chance, plan, |character| !character.is_ascii_digit());
    Some(Fault::Row(9, put(punch, other)))
}

#[cfg(test)]
mod tests {
    use super::*;
    use crate::count_blocks;

    /// By each edition, and by each layout.
    #[test]
    fn slips_are_refused_where_they_were_made() {
        let chance = &mut Chance::new(10);
        let mut seen = [[0; 15]; 4];
        for _ in 0..20_000 {
            let Slipped { specification, tape, refusal } = slipped(chance);
            assert_eq!(count_blocks(&specification, &tape), Err(refusal), "{specification:?} {}", tape.escape_ascii());
            let format = specification.format().unwrap();
            let kind = if format.unnumbered { format.layout as usize } else { 3 };
            seen[kind][refusal.number as usize] += 1;
        }
        for (kind, seen) in seen.iter().enumerate() {
            for number in [9, 10, 14] {
                assert!(seen[number] > 100 || kind == 3 && number == 10, "{kind} {seen:?}");
            }
        }
    }
}
