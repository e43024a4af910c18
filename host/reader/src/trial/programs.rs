//! Random shorthands and programs, and sound tapes of them that use every freedom of the rules.
//!
//! Nothing here asks the reader: the expected blocks are known from the making.

use super::chance::Chance;
use super::preferred;
use super::profiles::General;
use crate::reading::{Block, Opening, Value};
use crate::rows::{is_character, punched, BS, CR, DEL, HT, LF, NUL};
use crate::shorthand::{Dropped, Layout, DIMENSIONS};
use crate::specification::Specification;
use crate::speeds::Speed;
use std::mem;

/// A word item as it was made.
#[derive(Clone, Copy)]
pub(super) enum Made {
    Plain { digits: usize },
    Speed { digits: usize },
    Dimension { mark: Option<u8>, digits: usize, dropped: Dropped },
}

/// A sound specification with what it means.
pub struct Plan {
    /// what is handed over
    pub specification: Specification,
    /// the digits of a sequence number
    pub sequence: usize,
    pub(super) layout: Layout,
    pub(super) items: Vec<(u8, Made)>,
}

/// A shorthand in its parts.
pub(super) struct Sketch {
    pub edition: u32,
    pub sequence: usize,
    pub tabs: bool,
    pub items: Vec<Drawn>,
}

/// A word item with its text, but for the dot.
pub(super) struct Drawn {
    pub letter: u8,
    pub made: Made,
    pub text: Vec<u8>,
}

impl Sketch {
    /// The plan without a profile.
    pub fn plan(&self) -> Plan {
        let mut text = self.text(self.items.len());
        text.push(b'*');
        let specification = Specification { edition: self.edition, shorthand: text, profile: Vec::new() };
        let layout = if self.tabs { Layout::Both } else { Layout::Addresses };
        let items = self.items.iter().map(|item| (item.letter, item.made)).collect();
        Plan { specification, sequence: self.sequence, layout, items }
    }

    /// The text of N and of the first `count` items.
    pub fn text(&self, count: usize) -> Vec<u8> {
        let mut text = format!("N{}", self.sequence).into_bytes();
        for item in &self.items[..count] {
            text.extend(self.tabs.then_some(b'.'));
            text.extend_from_slice(&item.text);
        }
        text
    }
}

impl Plan {
    /// The same shorthand under `profile`, which agrees with it.
    pub(super) fn under(mut self, profile: &General) -> Plan {
        self.layout = match (self.layout.has_tabs(), profile.has_addresses()) {
            (false, _) => Layout::Addresses,
            (true, true) => Layout::Both,
            (true, false) => Layout::Tabs,
        };
        self.specification.profile = profile.text();
        self
    }

    pub(super) fn is_newer(&self) -> bool {
        self.specification.edition == 2539
    }

    /// Whether a block, which has a word or none, has no number: now and then where it may.
    pub(super) fn leaves_number_out(&self, chance: &mut Chance, worded: bool) -> bool {
        self.is_newer() && worded && chance.happens(1, 3)
    }
}

/// A sound shorthand of either edition, about half of the time under a profile.
pub fn plan(chance: &mut Chance) -> Plan {
    let plan = sketch(chance).plan();
    match General::drawn(chance, &plan) {
        Some(profile) if chance.happens(2, 3) => plan.under(&profile),
        _ => plan,
    }
}

pub(super) fn sketch(chance: &mut Chance) -> Sketch {
    let newer = chance.happens(2, 3);
    let edition = if newer { 2539 } else { 1057 };
    let sequence = if newer { 3 + chance.below(7) } else { 3 };
    let tabs = !newer || chance.happens(1, 2);
    // from none of the letters to all of them, now and then hardly a dimension, and feeds more often than others
    let density = chance.below(11);
    let sparse = if chance.happens(1, 4) { chance.below(3) } else { density };
    let dense = density.max(chance.below(11));
    // now and then no incremental dimension, or no other; I, J and K by themselves, as they are no positions
    let [marks, marks_of_ijk] = [(); 2].map(|()| chance.one_of(&[MARKS, MARKS, &MARKS[..2], &MARKS[2..]]));
    // which of E and D are feeds; the others are dimensions
    let second = chance.one_of(&[&b""[..], b"E", b"D", b"DE", b"DE", b"DE"]);
    let first: Vec<u8> = DIMENSIONS.iter().copied().filter(|letter| !second.contains(letter)).collect();
    let mut dimensions = some_of(chance, &first, sparse);
    dimensions.retain(|letter| newer || !b"IJK".contains(letter));
    let mut feeds = some_of(chance, b"F", dense);
    // the feed behind each dimension that another one follows; the others stand behind the last
    let mut own: Vec<Option<u8>> = vec![None; dimensions.len()];
    for feed in some_of(chance, second, dense) {
        let at = chance.below(dimensions.len().max(1));
        if at + 1 < dimensions.len() && own[at].is_none() && chance.happens(2, 3) {
            own[at] = Some(feed);
        } else {
            feeds.push(feed);
        }
    }
    chance.shuffle(&mut feeds);
    let mut items: Vec<Drawn> = Vec::new();
    items.extend(some_of(chance, b"G", density).iter().map(|&letter| plain(chance, letter)));
    for (&letter, own) in dimensions.iter().zip(own) {
        items.push(dimension(chance, letter, newer, if b"IJK".contains(&letter) { marks_of_ijk } else { marks }));
        items.extend(own.map(|letter| speed(chance, letter, newer)));
    }
    items.extend(feeds.iter().map(|&letter| speed(chance, letter, newer)));
    items.extend(some_of(chance, b"S", density).iter().map(|&letter| speed(chance, letter, newer)));
    items.extend(some_of(chance, b"TM", density).iter().map(|&letter| plain(chance, letter)));
    Sketch { edition, sequence, tabs, items }
}

/// Of ten letters about `density`.
fn some_of(chance: &mut Chance, letters: &[u8], density: usize) -> Vec<u8> {
    letters.iter().copied().filter(|_| chance.happens(density, 10)).collect()
}

/// G, M or T.
fn plain(chance: &mut Chance, letter: u8) -> Drawn {
    let digits = if letter == b'T' { 1 + chance.below(9) } else { 2 };
    Drawn { letter, made: Made::Plain { digits }, text: vec![letter, digit(digits)] }
}

/// S, or a feed: F, E or D. In 2539 S and F may have two digits.
pub(super) fn speed(chance: &mut Chance, letter: u8, newer: bool) -> Drawn {
    let two_digits = newer && b"FS".contains(&letter) && chance.happens(1, 2);
    let digits = if two_digits { 2 } else { 3 + chance.below(3) };
    Drawn { letter, made: Made::Speed { digits }, text: vec![letter, digit(digits)] }
}

/// The marks of a dimension.
pub(super) const MARKS: &[Option<u8>] = &[None, Some(b'+'), Some(b'D')];

pub(super) fn dimension(chance: &mut Chance, letter: u8, newer: bool, marks: &[Option<u8>]) -> Drawn {
    let mark = chance.one_of(marks);
    let mut text = vec![letter];
    text.extend(mark);
    let (mut a, mut b) = (chance.below(10), chance.below(10));
    let dropped = match chance.below(3) {
        1 if newer => Dropped::Leading,
        2 if newer => Dropped::Trailing,
        _ => Dropped::None,
    };
    match dropped {
        Dropped::None if a + b == 0 => a = 1,
        Dropped::Leading => b = b.max(1),
        Dropped::Trailing => a = a.max(1),
        Dropped::None => {}
    }
    match dropped {
        Dropped::None => text.extend([digit(a), digit(b)]),
        Dropped::Leading => text.extend([b'0', digit(a), digit(b)]),
        Dropped::Trailing => text.extend([digit(a), digit(b), b'0']),
    }
    Drawn { letter, made: Made::Dimension { mark, digits: a + b, dropped }, text }
}

fn digit(value: usize) -> u8 {
    b'0' + value as u8
}

/// A punched tape with the blocks that stand on it.
pub struct Tape {
    /// its rows
    pub rows: Vec<u8>,
    /// what they mean
    pub blocks: Vec<Block>,
}

/// Rows as they are punched, with what may stand anywhere strewn between them.
pub(super) struct Punch<'c> {
    pub chance: &'c mut Chance,
    pub rows: Vec<u8>,
    /// how many characters of 64 have something strewn before them
    strewn: usize,
    /// how many chances of 64 to break a rule are taken; 0 for a sound tape
    slips: usize,
    /// what sequence numbers are drawn from; where there are none, any may stand
    numbers: Vec<u64>,
}

/// A sound tape of `most` blocks or fewer.
pub fn tape(chance: &mut Chance, plan: &Plan, most: usize) -> Tape {
    punched_tape(chance, plan, most, 0)
}

/// The same with no sequence numbers but those of `numbers`.
pub(super) fn tape_of(chance: &mut Chance, plan: &Plan, most: usize, numbers: &[u64]) -> Tape {
    let mut punch = Punch::begun(chance, 0);
    punch.numbers = numbers.to_vec();
    finished(punch, plan, most)
}

/// The rows of a sound tape's head, and of each of `most` blocks or fewer.
pub(super) fn parts(chance: &mut Chance, plan: &Plan, most: usize) -> Vec<Vec<u8>> {
    let mut punch = Punch::begun(chance, 0);
    let mut parts = vec![mem::take(&mut punch.rows)];
    for _ in 0..punch.chance.below(most + 1) {
        block(&mut punch, plan);
        parts.push(mem::take(&mut punch.rows));
    }
    parts
}

/// Rows that break the rules of words, signs, speeds, tabs and ends here and there.
pub fn slipped_rows(chance: &mut Chance, plan: &Plan, most: usize) -> Vec<u8> {
    punched_tape(chance, plan, most, 3).rows
}

fn punched_tape(chance: &mut Chance, plan: &Plan, most: usize, slips: usize) -> Tape {
    finished(Punch::begun(chance, slips), plan, most)
}

fn finished(mut punch: Punch, plan: &Plan, most: usize) -> Tape {
    let blocks = blocks(&mut punch, plan, most);
    if punch.chance.happens(1, 3) {
        punch.strew();
    }
    Tape { rows: punch.rows, blocks }
}

/// A sound tape of exactly `length` rows or a few more than one block fewer, filled up with NUL.
pub fn long_tape(chance: &mut Chance, plan: &Plan, length: usize) -> Tape {
    let mut punch = Punch { chance, rows: Vec::with_capacity(length + 4096), strewn: 1, slips: 0, numbers: Vec::new() };
    punch.character(b'%');
    punch.end();
    let mut blocks = Vec::new();
    loop {
        let before = punch.rows.len();
        let next = block(&mut punch, plan);
        if punch.rows.len() > length {
            punch.rows.truncate(before);
            break;
        }
        blocks.push(next);
    }
    punch.rows.resize(length, NUL);
    Tape { rows: punch.rows, blocks }
}

/// `most` blocks or fewer.
pub(super) fn blocks(punch: &mut Punch, plan: &Plan, most: usize) -> Vec<Block> {
    (0..punch.chance.below(most + 1)).map(|_| block(punch, plan)).collect()
}

fn block(punch: &mut Punch, plan: &Plan) -> Block {
    let density = punch.chance.below(11);
    let present: Vec<bool> = plan.items.iter().map(|_| punch.chance.happens(density, 10)).collect();
    let opening = opening(punch, plan, present.contains(&true));
    // tabs after the last word may stay or go
    let needed = present.iter().rposition(|&p| p).map_or(0, |last| last + 1);
    let kept = if punch.chance.happens(1, 2) { needed } else { needed + punch.chance.below(present.len() - needed + 1) };
    let mut words = Vec::new();
    for (&(letter, made), &present) in plan.items.iter().zip(&present).take(kept) {
        if plan.layout.has_tabs() != punch.slips() {
            punch.character(HT);
        }
        if present {
            // not left out by a slip: nearly every tape would be refused for it
            if plan.layout.has_addresses() || punch.slips() {
                punch.character(letter);
            }
            words.push((letter, word(punch, made, plan.specification.edition)));
        }
    }
    punch.end();
    Block { opening, words }
}

/// "/" or not, and the sequence word. A slip leaves it out where it must stand.
fn opening(punch: &mut Punch, plan: &Plan, worded: bool) -> Opening {
    let skip = punch.skip();
    if plan.leaves_number_out(punch.chance, worded) || punch.slips() {
        return Opening { skip, ..Opening::BARE };
    }
    let alignment = punch.chance.happens(1, 4);
    punch.character(if alignment { b':' } else { b'N' });
    Opening { skip, alignment, ..Opening::numbered(punch.sequence(plan.sequence)) }
}

fn word(punch: &mut Punch, made: Made, edition: u32) -> Value {
    let sign = match (made, edition) {
        (Made::Dimension { mark: Some(_), .. }, 1057) => Some(punch.chance.one_of(b"+-")),
        (Made::Dimension { mark: Some(_), .. }, _) => punch.chance.one_of(&[None, Some(b'+'), Some(b'-')]),
        _ => None,
    };
    punch.sign(sign);
    match made {
        Made::Plain { digits } => Value::Plain(punch.digits(digits)),
        // a slip may have punched a digit too many
        Made::Speed { digits: 2 } => Value::Speed(preferred::speed(punch.digits(2) % 100)),
        Made::Speed { digits } => Value::Speed(Speed::Rate(punch.rate(digits))),
        Made::Dimension { digits, dropped, .. } => {
            let standing = if dropped == Dropped::None { digits } else { 1 + punch.chance.below(digits) };
            let mut number = punch.digits(standing) as i64;
            if dropped == Dropped::Trailing {
                for _ in standing..digits {
                    number = number.wrapping_mul(10); // a slip may have punched a digit too many
                }
            }
            Value::Dimension(if sign == Some(b'-') { -number } else { number })
        }
    }
}

/// All but ":", "%" and ")" may stand inside, a second "(" and LF too.
pub(super) fn control_out(chance: &mut Chance) -> Vec<u8> {
    let mut rows = vec![punched(b'(')];
    for _ in 0..chance.below(12) {
        let character = match chance.below(6) {
            0 => chance.one_of(&[b'(', LF, CR, HT, NUL, DEL, BS, b' ', b'/', b'N']),
            _ => any_character(chance),
        };
        if !matches!(character, b':' | b'%' | b')') {
            rows.push(punched(character));
        }
    }
    rows.push(punched(b')'));
    rows
}

impl<'c> Punch<'c> {
    /// Perhaps a leader, and the head.
    pub fn begun(chance: &'c mut Chance, slips: usize) -> Punch<'c> {
        let strewn = chance.one_of(&[0, 0, 1, 4, 24]);
        let mut punch = Punch { chance, rows: Vec::new(), strewn, slips, numbers: Vec::new() };
        if punch.chance.happens(1, 3) {
            let leader = punch.chance.below(8);
            punch.rows.extend(vec![NUL; leader]);
        }
        punch.character(b'%');
        punch.end();
        punch
    }

    /// "/" or not.
    pub fn skip(&mut self) -> bool {
        let skip = self.chance.happens(1, 4);
        if skip {
            self.character(b'/');
        }
        skip
    }

    /// Whether a rule is broken here.
    fn slips(&mut self) -> bool {
        self.slips > 0 && self.chance.happens(self.slips, 64)
    }

    pub fn character(&mut self, character: u8) {
        if self.chance.happens(self.strewn, 64) {
            self.strew();
        }
        self.rows.push(punched(character));
    }

    /// NUL, DEL and control-outs, which may stand anywhere.
    pub fn strew(&mut self) {
        for _ in 0..1 + self.chance.below(3) {
            match self.chance.below(4) {
                0 => self.rows.push(punched(NUL)),
                1 => self.rows.push(punched(DEL)),
                _ => {
                    let rows = control_out(self.chance);
                    self.rows.extend(rows);
                }
            }
        }
    }

    /// LF, or CR directly before LF.
    fn end(&mut self) {
        if self.chance.happens(1, 3) {
            self.character(CR);
        }
        if self.slips() {
            let other = self.chance.one_of(&[CR, HT, b'/', b' ', b'X']);
            self.character(other);
        }
        self.character(LF);
    }

    /// A sign or none. A slip leaves it out, or puts one in where it may be barred.
    fn sign(&mut self, sign: Option<u8>) {
        match (sign, self.slips()) {
            (Some(sign), false) => self.character(sign),
            (None, true) => {
                let sign = self.chance.one_of(b"+-");
                self.character(sign);
            }
            _ => {}
        }
    }

    /// A sequence number in `count` digits.
    fn sequence(&mut self, count: usize) -> u64 {
        if self.numbers.is_empty() {
            return self.digits(count);
        }
        let number = self.numbers[self.chance.below(self.numbers.len())];
        format!("{number:0count$}").bytes().for_each(|digit| self.character(digit));
        number
    }

    /// `count` digits: any, or all of one kind, or zeros at one end.
    fn digits(&mut self, mut count: usize) -> u64 {
        if self.slips() {
            count = self.chance.one_of(&[count + 1, count + 1, count - 1, 0]);
        }
        let kind = self.chance.below(8);
        let zeros = self.chance.below(count + 1);
        let mut number = 0;
        for at in 0..count {
            let digit = match kind {
                0 => 0,
                1 => 9,
                2 if at < zeros => 0,
                3 if at >= zeros => 0,
                _ => self.chance.below(10) as u8,
            };
            self.character(b'0' + digit);
            number = number * 10 + u64::from(digit);
        }
        number
    }

    /// A rate in 3 to 5 digits: all zeros, or a second digit that is not.
    fn rate(&mut self, count: usize) -> u64 {
        let zero = self.chance.happens(1, 8);
        let slip = self.slips > 0 && self.chance.happens(1, 4); // refusal 13 is the rarest
        let d = if zero { 0 } else { self.chance.below(10) as u8 };
        self.character(b'0' + d);
        let mut number = 0;
        for at in 1..count {
            let digit = match at {
                _ if zero => 0,
                1 if slip => 0,
                1 => 1 + self.chance.below(9) as u8,
                _ => self.chance.below(10) as u8,
            };
            self.character(b'0' + digit);
            number = number * 10 + u64::from(digit);
        }
        // the last digit of m stands for 10^(d+5-count) units
        for _ in 0..usize::from(d) + 5 - count {
            number *= 10;
        }
        if self.slips() {
            self.character(b'0');
        }
        number
    }
}

/// One of the 50.
pub fn any_character(chance: &mut Chance) -> u8 {
    loop {
        let character = chance.below(128) as u8;
        if is_character(character) {
            return character;
        }
    }
}

#[cfg(test)]
mod tests {
    use super::*;
    use crate::{count_blocks, reading};

    #[test]
    fn what_was_made_is_read() {
        let chance = &mut Chance::new(1);
        for _ in 0..5_000 {
            let plan = plan(chance);
            let tape = tape(chance, &plan, 8);
            let format = plan.specification.format().unwrap();
            assert!(plan.items.is_empty() || format.layout == plan.layout);
            let mut blocks = Vec::new();
            assert_eq!(reading::read(&format, &tape.rows, &mut blocks), Ok(()));
            assert_eq!(blocks, tape.blocks);
        }
    }

    /// Of every layout of 2539, with "/" and without, and with the first items left out.
    #[test]
    fn numbers_are_left_out_wherever_they_may() {
        let chance = &mut Chance::new(5);
        let mut seen = [[[0; 2]; 2]; 3];
        for _ in 0..10_000 {
            let plan = plan(chance);
            for Block { opening, words } in tape(chance, &plan, 4).blocks {
                if !opening.numbered {
                    assert!(plan.is_newer() && !opening.alignment && !words.is_empty());
                    let first = words[0].0 == plan.items[0].0;
                    seen[plan.layout as usize][usize::from(opening.skip)][usize::from(first)] += 1;
                }
            }
        }
        assert!(seen.as_flattened().as_flattened().iter().all(|&seen| seen > 50), "{seen:?}");
    }

    /// Seen in the letters of the items, with `d` for a dimension and `f` for an E or D that is a feed.
    #[test]
    fn feeds_stand_wherever_they_may() {
        let chance = &mut Chance::new(3);
        let telling = ["dfd", "dfdfd", "dfdf", "dff", "dfF", "dFf", "dffF", "dfFf", "dFff", "Gf", "GFf", "GffF"];
        let mut seen = [[[0; 12]; 2]; 2];
        let mut in_order = [0; 2];
        for _ in 0..20_000 {
            let sketch = sketch(chance);
            let class = |item: &Drawn| match (item.letter, item.made) {
                (_, Made::Dimension { .. }) => 'd',
                (b'E' | b'D', _) => 'f',
                (letter, _) => char::from(letter),
            };
            let classes: String = sketch.items.iter().map(class).collect();
            let seen = &mut seen[usize::from(sketch.edition == 2539)][usize::from(sketch.tabs)];
            for (seen, telling) in seen.iter_mut().zip(telling) {
                *seen += u32::from(classes.contains(telling));
            }
            let feeds = sketch.items.iter().filter(|item| class(item) == 'f').map(|item| item.letter);
            in_order[usize::from(feeds.is_sorted())] += 1;
        }
        for (edition, tabs) in [(0, 1), (1, 0), (1, 1)] {
            for (seen, telling) in seen[edition][tabs].iter().zip(telling) {
                assert!(*seen > 20, "{telling}: {seen}");
            }
        }
        assert!(in_order[0] > 1_000 && in_order[1] > 1_000);
    }

    #[test]
    fn a_long_tape_has_its_length() {
        let chance = &mut Chance::new(2);
        let plan = plan(chance);
        let tape = long_tape(chance, &plan, 50_000);
        assert_eq!(tape.rows.len(), 50_000);
        assert_eq!(count_blocks(&plan.specification, &tape.rows), Ok(tape.blocks.len() as u64));
    }
}
