//! Random records to punch: sound ones, whose rows needed are known from the making, and faulty ones.
//!
//! Nothing here asks the reader: a fault is put into a sound record, so that its number and place are known.

use super::chance::Chance;
use super::inputs::{bad_text, either_edition, strange_edition};
use super::misplaced::{self, Slipped};
use super::preferred;
use super::profiles;
use super::programs::{self, Made, Plan};
use crate::punching::{Record, Word, CLEARED, PLACES};
use crate::reading::{Opening, Value};
use crate::shorthand::ORDER;
use crate::specification::Specification;
use crate::speeds::Speed;
use crate::Refusal;

/// The most rows of a lent buffer.
pub const MOST_ROOM: usize = 4_000;

/// A record with the buffer that is lent for it.
#[derive(Clone)]
pub struct Handed {
    /// what it is judged by
    pub specification: Specification,
    /// how many rows the buffer has
    pub room: usize,
    /// the buffer's first row before the punching; each further one is one more
    pub first: u8,
    /// what is to be punched
    pub record: Record,
}

/// What a punching must answer, where it is known from the making: the rows punched, or the refusal.
pub type Known = Option<Result<u64, Refusal>>;

/// `size` records, the same for the same seed.
pub fn records(seed: u64, size: usize) -> Vec<(Handed, Known)> {
    let chance = &mut Chance::new(seed);
    (0..size).map(|_| one(chance)).collect()
}

fn one(chance: &mut Chance) -> (Handed, Known) {
    let plan = programs::plan(chance);
    let sound = sound(chance, &plan);
    let room = room(chance, sound.needed);
    let mut handed =
        Handed { specification: plan.specification.clone(), room, first: chance.below(256) as u8, record: sound.record.clone() };
    let known = match chance.below(36) {
        0 => other_edition(chance, &plan, &mut handed),
        1..=3 => other_shorthand(chance, &plan, &mut handed),
        32..=35 => other_profile(chance, &plan, &mut handed),
        4..=17 => Some(one_fault(chance, &plan, &mut handed.record)),
        18..=20 => some_faults(chance, &plan, &mut handed.record),
        _ => Some(sound.punched_into(room)),
    };
    (handed, known)
}

/// A sound record and how many rows it needs.
pub(super) struct Sound {
    pub record: Record,
    pub needed: usize,
}

impl Sound {
    fn punched_into(&self, room: usize) -> Result<u64, Refusal> {
        if room < self.needed {
            Err(Refusal::new(19, self.needed))
        } else {
            Ok(self.needed as u64)
        }
    }
}

pub(super) fn sound(chance: &mut Chance, plan: &Plan) -> Sound {
    let opening = Opening {
        skip: chance.happens(1, 4),
        alignment: chance.happens(1, 4),
        ..Opening::numbered(number(chance, plan.sequence))
    };
    let mut record = Record { opening, count: 0, places: [CLEARED; PLACES] };
    // "/", and LF
    let mut needed = usize::from(opening.skip) + 1;
    let mut tabs = 0;
    let density = chance.below(11);
    for (at, &(letter, made)) in plan.items.iter().enumerate() {
        if chance.happens(density, 10) {
            record.places[record.count as usize] = (letter, value(chance, made));
            record.count += 1;
            needed += usize::from(plan.layout.has_addresses()) + rows_of(made);
            tabs = at + 1;
        }
    }
    if plan.layout.has_tabs() {
        needed += tabs;
    }
    if plan.leaves_number_out(chance, record.count > 0) {
        record.opening.alignment = false;
        take_number(chance, &mut record);
    } else {
        // N or ":", and its digits
        needed += 1 + plan.sequence;
    }
    if chance.happens(1, 4) {
        litter(chance, &mut record);
    }
    Sound { record, needed }
}

/// Takes the number away, and may leave rubbish in its field, which nobody looks at.
fn take_number(chance: &mut Chance, record: &mut Record) {
    let rubbish = chance.number() >> chance.below(64);
    record.opening.numbered = false;
    record.opening.sequence = chance.one_of(&[0, 0, record.opening.sequence, 1_000, rubbish, u64::MAX]);
}

/// The rows of a word but for its address: its sign and all its digits.
fn rows_of(made: Made) -> usize {
    match made {
        Made::Plain { digits } | Made::Speed { digits } => digits,
        Made::Dimension { mark, digits, .. } => usize::from(mark.is_some()) + digits,
    }
}

/// Rubbish in the places past the count, which nobody looks at.
fn litter(chance: &mut Chance, record: &mut Record) {
    for place in record.places.iter_mut().skip(record.count as usize) {
        *place = (chance.one_of(b"GXMFN\0\x7F\xC8"), any_value(chance));
    }
}

fn any_value(chance: &mut Chance) -> Value {
    let number = chance.number() >> chance.below(64);
    match chance.below(3) {
        0 => Value::Plain(number),
        1 => Value::Speed(any_speed(chance, number)),
        _ => Value::Dimension(number as i64),
    }
}

/// That rate, or now and then none.
fn any_speed(chance: &mut Chance, units: u64) -> Speed {
    let rate = Speed::Rate(units);
    chance.one_of(&[Speed::Stop, Speed::Rapid, rate, rate, rate])
}

/// A value that the item holds, its edges often.
fn value(chance: &mut Chance, made: Made) -> Value {
    match made {
        Made::Plain { digits } => Value::Plain(number(chance, digits)),
        Made::Speed { digits: 2 } => Value::Speed(preferred::some(chance)),
        Made::Speed { digits } => Value::Speed(Speed::Rate(rate(chance, digits))),
        Made::Dimension { mark, digits, .. } => {
            let number = number(chance, digits) as i64;
            Value::Dimension(if mark.is_some() && chance.happens(1, 2) { -number } else { number })
        }
    }
}

/// A number of at most `digits` digits: none, the least, the greatest, or any.
fn number(chance: &mut Chance, digits: usize) -> u64 {
    let above = power(digits);
    match chance.below(8) {
        0 => 0,
        1 => above - 1,
        2 => power(chance.below(digits)),
        _ => chance.number() % power(1 + chance.below(digits)),
    }
}

/// The rate that a code of 3 to 5 `digits` means: m times ten to the power d + 5 - k.
fn rate(chance: &mut Chance, digits: usize) -> u64 {
    let least = power(digits - 2);
    let (d, m) = match chance.below(8) {
        0 => return 0,
        1 => (0, least),
        2 => (9, 10 * least - 1),
        _ => (chance.below(10), least + chance.number() % (9 * least)),
    };
    m * power(d + 5 - digits)
}

fn power(exponent: usize) -> u64 {
    10u64.pow(exponent as u32)
}

/// A buffer for a block that needs `needed` rows: exactly fitting, one short, with room, or with none.
fn room(chance: &mut Chance, needed: usize) -> usize {
    match chance.below(16) {
        0 => 0,
        1 | 2 => needed - 1,
        3 => chance.below(needed),
        4..=9 => needed,
        10..=14 => needed + 1 + chance.below(12),
        _ => needed + chance.below(300),
    }
}

fn other_edition(chance: &mut Chance, plan: &Plan, handed: &mut Handed) -> Known {
    handed.specification.edition = strange_edition(chance);
    handed.specification.profile = profiles::any(chance, plan);
    None
}

/// The record by a shorthand that it was not made by: cut, damaged, with a slip, or of the other edition.
fn other_shorthand(chance: &mut Chance, plan: &Plan, handed: &mut Handed) -> Known {
    let Specification { edition, shorthand, profile } = &mut handed.specification;
    match chance.below(7) {
        0 | 1 => shorthand.truncate(chance.below(shorthand.len())),
        2 | 3 => *shorthand = bad_text(chance, shorthand.clone()),
        4 => {
            let Slipped { specification, refusal, .. } = misplaced::slipped(chance);
            handed.specification = specification;
            return Some(Err(refusal));
        }
        _ => *shorthand = programs::plan(chance).specification.shorthand,
    }
    *profile = profiles::any(chance, plan);
    *edition = either_edition(chance);
    None
}

/// The record by a profile that it was not made by. A fault of the profile comes before any of the record.
fn other_profile(chance: &mut Chance, plan: &Plan, handed: &mut Handed) -> Known {
    if chance.happens(1, 2) {
        // a fault of the record can't speak
        let _ = one_fault(chance, plan, &mut handed.record);
    }
    let profile = &mut handed.specification.profile;
    match chance.below(4) {
        0 => *profile = profiles::damaged(chance, plan),
        1 => *profile = profiles::any(chance, plan),
        _ => {
            let (faulty, refusal) = profiles::faulty(chance, plan);
            *profile = faulty;
            return Some(Err(refusal));
        }
    }
    None
}

/// Puts a fault into a sound record; none where it has nothing that can have it.
type Fault = fn(&mut Chance, &Plan, &mut Record) -> Option<Refusal>;

const FAULTS: &[Fault] = &[
    too_many_words,
    sequence_too_large,
    neither_number_nor_word,
    alignment_without_number,
    no_number_by_1057,
    foreign_letter,
    exchanged_words,
    repeated_word,
    wrong_kind,
    cleared_place_counted,
    number_too_large,
    minus_without_sign,
    inexact_speed,
    inexact_speed,
];

pub(super) fn one_fault(chance: &mut Chance, plan: &Plan, record: &mut Record) -> Result<u64, Refusal> {
    loop {
        let fault = chance.one_of(FAULTS);
        if let Some(refusal) = fault(chance, plan, record) {
            return Err(refusal);
        }
    }
}

/// Several faults, the first of which speaks.
fn some_faults(chance: &mut Chance, plan: &Plan, record: &mut Record) -> Known {
    for _ in 0..2 + chance.below(3) {
        // a count that was made too large would hide all others
        let fault = chance.one_of(&FAULTS[1..]);
        fault(chance, plan, record);
    }
    None
}

fn too_many_words(chance: &mut Chance, _: &Plan, record: &mut Record) -> Option<Refusal> {
    let over = [23, 24, 32, 255, 256, 257, 1 << 16, 1 << 32, (1 << 32) + 1, 1 << 63, u64::MAX];
    record.count = chance.one_of(&over);
    Some(Refusal::new(16, PLACES + 1))
}

fn sequence_too_large(chance: &mut Chance, plan: &Plan, record: &mut Record) -> Option<Refusal> {
    record.opening.sequence = beyond(chance, plan.sequence);
    record.opening.numbered.then_some(Refusal::new(17, 0))
}

/// Its words stand past the count.
fn neither_number_nor_word(chance: &mut Chance, _: &Plan, record: &mut Record) -> Option<Refusal> {
    take_number(chance, record);
    record.count = 0;
    Some(Refusal::new(16, 0))
}

fn alignment_without_number(chance: &mut Chance, _: &Plan, record: &mut Record) -> Option<Refusal> {
    take_number(chance, record);
    record.opening.alignment = true;
    Some(Refusal::new(16, 0))
}

fn no_number_by_1057(chance: &mut Chance, plan: &Plan, record: &mut Record) -> Option<Refusal> {
    (!plan.is_newer()).then(|| {
        take_number(chance, record);
        Refusal::new(16, 0)
    })
}

/// A number of more than `digits` digits, and at most `i64` holds it half of the time.
fn beyond(chance: &mut Chance, digits: usize) -> u64 {
    let above = power(digits);
    match chance.below(8) {
        0..=2 => above,
        3 => u64::MAX,
        4 => i64::MAX as u64,
        5 => (1 << 63) + chance.number() % (1 << 63),
        _ => above + chance.number() % above,
    }
}

/// One of the record's words, by its place from 0.
fn some_word(chance: &mut Chance, record: &Record) -> Option<usize> {
    (record.count > 0).then(|| chance.below(record.count as usize))
}

/// One of the words that `fits` takes.
fn some_word_of(chance: &mut Chance, record: &Record, fits: impl Fn(&Word) -> bool) -> Option<usize> {
    let all: Vec<usize> = (0..record.count as usize).filter(|&at| fits(&record.places[at])).collect();
    (!all.is_empty()).then(|| chance.one_of(&all))
}

fn made_of(plan: &Plan, letter: u8) -> Option<Made> {
    plan.items.iter().find(|item| item.0 == letter).map(|item| item.1)
}

fn foreign_letter(chance: &mut Chance, plan: &Plan, record: &mut Record) -> Option<Refusal> {
    let at = some_word(chance, record)?;
    let mut letters: Vec<u8> = ORDER.iter().copied().filter(|&letter| made_of(plan, letter).is_none()).collect();
    letters.extend(b"NHLO\0:#x \n\x7F\xC7\xC8\xFF");
    record.places[at].0 = chance.one_of(&letters);
    Some(Refusal::new(16, at + 1))
}

/// Two words change places: whatever follows the later one is out of order.
fn exchanged_words(chance: &mut Chance, _: &Plan, record: &mut Record) -> Option<Refusal> {
    let (one, other) = (some_word(chance, record)?, some_word(chance, record)?);
    record.places.swap(one, other);
    (one != other).then(|| Refusal::new(16, one.min(other) + 2))
}

fn repeated_word(chance: &mut Chance, _: &Plan, record: &mut Record) -> Option<Refusal> {
    let at = some_word(chance, record)?;
    let word = record.places[at];
    *record.places.get_mut(at + 1)? = word;
    record.count = record.count.max(at as u64 + 2);
    Some(Refusal::new(16, at + 2))
}

fn wrong_kind(chance: &mut Chance, _: &Plan, record: &mut Record) -> Option<Refusal> {
    let at = some_word(chance, record)?;
    let (number, other) = match record.places[at].1 {
        Value::Plain(number) => (number, chance.one_of(b"DS")),
        Value::Speed(Speed::Rate(units)) => (units, chance.one_of(b"DN")),
        Value::Speed(_) => (0, chance.one_of(b"DN")),
        Value::Dimension(number) => (number.unsigned_abs(), chance.one_of(b"NS")),
    };
    record.places[at].1 = match other {
        b'D' => Value::Dimension(number as i64),
        b'S' => Value::Speed(any_speed(chance, number)),
        _ => Value::Plain(number),
    };
    Some(Refusal::new(16, at + 1))
}

fn cleared_place_counted(chance: &mut Chance, _: &Plan, record: &mut Record) -> Option<Refusal> {
    let count = record.count as usize;
    *record.places.get_mut(count)? = CLEARED;
    record.count += 1 + chance.below(PLACES - count) as u64;
    Some(Refusal::new(16, count + 1))
}

fn number_too_large(chance: &mut Chance, plan: &Plan, record: &mut Record) -> Option<Refusal> {
    let at = some_word_of(chance, record, |word| !matches!(word.1, Value::Speed(_)))?;
    let (letter, value) = &mut record.places[at];
    *value = match made_of(plan, *letter)? {
        Made::Plain { digits } => Value::Plain(beyond(chance, digits)),
        Made::Speed { .. } => return None,
        Made::Dimension { digits, .. } => Value::Dimension(far_out(chance, digits)),
    };
    Some(Refusal::new(17, at + 1))
}

/// A number of more than `digits` digits, at most 18, with either sign.
fn far_out(chance: &mut Chance, digits: usize) -> i64 {
    let number = match chance.below(8) {
        0 => return i64::MIN,
        1 => i64::MAX,
        _ => (power(digits) + [0, chance.number() % power(digits)][chance.below(2)]) as i64,
    };
    if chance.happens(1, 2) {
        -number
    } else {
        number
    }
}

fn minus_without_sign(chance: &mut Chance, plan: &Plan, record: &mut Record) -> Option<Refusal> {
    let bare = |word: &Word| matches!(made_of(plan, word.0), Some(Made::Dimension { mark: None, .. }));
    let at = some_word_of(chance, record, |word| bare(word) && matches!(word.1, Value::Dimension(_)))?;
    record.places[at].1 = match record.places[at].1 {
        Value::Dimension(number @ 1..) => Value::Dimension(-number),
        _ => Value::Dimension(-1),
    };
    Some(Refusal::new(17, at + 1))
}

fn inexact_speed(chance: &mut Chance, plan: &Plan, record: &mut Record) -> Option<Refusal> {
    let at = some_word_of(chance, record, |word| matches!(word.1, Value::Speed(_)))?;
    let (letter, value) = &mut record.places[at];
    let Some(Made::Speed { digits }) = made_of(plan, *letter) else { return None };
    *value = Value::Speed(match digits {
        2 => Speed::Rate(preferred::missed(chance)),
        _ => no_magic_three(chance, digits),
    });
    Some(Refusal::new(18, at + 1))
}

/// A speed that no code of 3 to 5 `digits` means.
fn no_magic_three(chance: &mut Chance, digits: usize) -> Speed {
    Speed::Rate(match chance.below(10) {
        0 => return Speed::Stop,
        1 => return Speed::Rapid,
        2 => 1 + chance.number() % 999,
        3 => power(13),
        4 => power(13) + (chance.number() >> 1),
        5 => u64::MAX,
        _ => too_fine(chance, digits),
    })
}

/// A rate with more significant digits than the code has room for.
fn too_fine(chance: &mut Chance, digits: usize) -> u64 {
    let significant = digits + chance.below(3);
    let leading = power(significant - 2) + chance.number() % (9 * power(significant - 2));
    let number = leading * 10 + 1 + chance.number() % 9;
    number * power(chance.below(13 - significant))
}

#[cfg(test)]
mod tests {
    use super::*;
    use crate::punch_block;
    use crate::punching::punch_head;
    use crate::reading::{block_rows, read_block};
    use crate::trial::inputs::lent;

    /// The old content of a lent buffer, and what the punching answers and leaves.
    fn punched(handed: &Handed) -> (Vec<u8>, Result<u64, Refusal>, Vec<u8>) {
        let before = lent(handed.room, handed.first);
        let mut buffer = before.clone();
        let answer = punch_block(&handed.specification, &handed.record, &mut buffer);
        (before, answer, buffer)
    }

    #[test]
    fn what_was_made_is_punched() {
        let (mut seen, mut unnumbered, mut lacking) = ([0; 24], [0; 24], 0);
        for (handed, known) in records(3, 20_000) {
            let (before, answer, buffer) = punched(&handed);
            assert!(known.is_none_or(|known| known == answer));
            let rows = answer.unwrap_or(0) as usize;
            assert_eq!(before[rows..], buffer[rows..]);
            assert!(handed.room <= MOST_ROOM);
            let number = answer.err().map_or(0, |refusal| refusal.number as usize);
            seen[number] += 1;
            unnumbered[number] +=
                u32::from(!handed.record.opening.numbered && answer.err().is_none_or(|refusal| refusal.place != 0));
            lacking += u32::from(answer == Err(Refusal::new(16, 0)));
        }
        for number in [0, 1, 2, 3, 16, 17, 18, 19, 22, 23] {
            assert!(seen[number] > 200, "{number} was seen {} times", seen[number]);
        }
        // without a number: punched, refused for a word or for want of room, and refused for want of a number
        for number in [0, 16, 17, 18, 19] {
            assert!(unnumbered[number] > 50, "{number} was seen {} times without a number", unnumbered[number]);
        }
        assert!(lacking > 200, "{lacking}");
    }

    #[test]
    fn what_was_punched_is_read() {
        for (mut handed, _) in records(4, 5_000) {
            handed.room = 600;
            let (_, Ok(rows), buffer) = punched(&handed) else { continue };
            let mut tape = vec![0; 2];
            punch_head(&mut tape).unwrap();
            tape.extend_from_slice(&buffer[..rows as usize]);
            let format = handed.specification.format().unwrap();
            let mut cleared = handed.record.clone();
            cleared.places[cleared.count as usize..].fill(CLEARED);
            if !cleared.opening.numbered {
                cleared.opening.sequence = 0;
            }
            let block = read_block(&format, &tape, 0).unwrap();
            assert_eq!(Record::from(&block), cleared);
            assert_eq!(block_rows(&format, &tape, 0), Ok(&tape[2..]));
        }
    }
}
