//! Correction tapes: a short tape with the altered blocks alone, beside the master that it corrects.

use crate::index::MARK;
use crate::reading::{self, Opening, Value, Visitor};
use crate::shorthand::Format;
use crate::Refusal;
use std::collections::BTreeMap;
use std::ops::Range;

/// One of the two.
#[derive(Clone, Copy, Debug, PartialEq, Eq)]
pub enum Tape {
    /// the tape with the altered blocks
    Correction,
    /// the tape that it corrects
    Master,
}

/// An entry of the corrected listing.
#[derive(Clone, Copy, Debug, PartialEq, Eq)]
pub struct Entry {
    /// which tape holds the block
    pub tape: Tape,
    /// which of that tape's blocks it is, from 0
    pub block: usize,
}

/// What a walk over an accepted tape finds of its blocks.
#[derive(Default)]
struct Roll {
    /// each block's number, if it has one
    numbers: Vec<Option<u64>>,
    /// the row just after the head's end, and after each block's
    after: Vec<usize>,
}

impl Visitor for Roll {
    fn block(&mut self, opening: Opening) {
        self.numbers.push(opening.number());
    }
    fn word(&mut self, _: u8, _: Value) {}
    fn end(&mut self, after: usize) {
        self.after.push(after);
    }
}

impl Roll {
    /// The rows of the first block with that number.
    fn rows_of(&self, number: u64) -> Option<Range<usize>> {
        let block = *firsts(&self.numbers).get(&number)?;
        Some(self.after[block]..self.after[block + 1])
    }
}

/// Both tapes' rolls. The correction is judged first.
fn rolls(format: &Format, correction: &[u8], master: &[u8]) -> Result<[Roll; 2], Refusal> {
    let [mut new, mut old] = [Roll::default(), Roll::default()];
    reading::read(format, correction, &mut new)?;
    reading::read(format, master, &mut old)?;
    Ok([new, old])
}

/// Where each number stands first.
fn firsts(numbers: &[Option<u64>]) -> BTreeMap<u64, usize> {
    let mut firsts = BTreeMap::new();
    for (block, number) in numbers.iter().enumerate() {
        if let Some(number) = number {
            firsts.entry(*number).or_insert(block);
        }
    }
    firsts
}

/// The rows of a number: on the correction where it has that number, else on the master.
pub fn rows<'t>(format: &Format, correction: &'t [u8], master: &'t [u8], number: u64) -> Result<(Tape, &'t [u8]), Refusal> {
    let [new, old] = rolls(format, correction, master)?;
    let altered = new.rows_of(number).map(|rows| (Tape::Correction, &correction[rows]));
    let kept = || old.rows_of(number).map(|rows| (Tape::Master, &master[rows]));
    altered.or_else(kept).ok_or(Refusal::new(25, 0))
}

/// The corrected listing, by the numbers of both tapes' blocks.
pub(crate) fn listing(correction: &[Option<u64>], master: &[Option<u64>]) -> Vec<Entry> {
    let (new, old) = (firsts(correction), firsts(master));
    let mut entries: Vec<Entry> = (0..master.len()).map(|block| Entry { tape: Tape::Master, block }).collect();
    let mut added = Vec::new();
    for (number, &block) in &new {
        let entry = Entry { tape: Tape::Correction, block };
        match old.get(number) {
            Some(&replaced) => entries[replaced] = entry,
            None => added.push(entry),
        }
    }
    // the map has them by their numbers
    added.sort_by_key(|entry| entry.block);
    entries.extend(added);
    entries
}

fn nth(entries: &[Entry], n: u64) -> Result<Entry, Refusal> {
    let there = usize::try_from(n).ok().and_then(|n| entries.get(n));
    there.copied().ok_or(Refusal::new(15, entries.len()))
}

/// Entry `n` of the corrected listing of two tapes, from 0.
pub fn entry(format: &Format, correction: &[u8], master: &[u8], n: u64) -> Result<Entry, Refusal> {
    let [new, old] = rolls(format, correction, master)?;
    nth(&listing(&new.numbers, &old.numbers), n)
}

/// The same by the numbers that the indexes of the two tapes keep.
pub fn indexed_entry(correction: &[u64], master: &[u64], n: u64) -> Result<Entry, Refusal> {
    let numbers = |kept: &[u64]| -> Vec<Option<u64>> { kept.iter().map(|&number| (number != MARK).then_some(number)).collect() };
    nth(&listing(&numbers(correction), &numbers(master)), n)
}

#[cfg(test)]
mod tests {
    use super::Tape::{Correction, Master};
    use super::*;
    use crate::index::{build, Arrays};
    use crate::rows::punched;
    use crate::shorthand::parse;

    const MASTER: &str = "%\nN001\nN002\nG01\nN002\nN003\n";
    const CORRECTION: &str = "%\nG02\nN009\nN002\nG03\nN009\nN002\nN001\n";

    fn tape(text: &str) -> Vec<u8> {
        text.bytes().map(punched).collect()
    }

    fn plain() -> Format {
        parse(2539, b"N3G2*").unwrap()
    }

    type Told<T> = Result<T, (u32, u64)>;

    fn told<T>(result: Result<T, Refusal>) -> Told<T> {
        result.map_err(|refusal| (refusal.number, refusal.place))
    }

    /// On which tape the rows of a number stand, and where.
    fn asked(correction: &str, master: &str, number: u64) -> Told<(Tape, Range<usize>)> {
        let (correction, master) = (tape(correction), tape(master));
        told(rows(&plain(), &correction, &master, number)).map(|(which, rows)| {
            let whole = if which == Correction { &correction } else { &master };
            let from = rows.as_ptr() as usize - whole.as_ptr() as usize;
            (which, from..from + rows.len())
        })
    }

    fn listed(correction: &str, master: &str, n: u64) -> Told<(Tape, usize)> {
        told(entry(&plain(), &tape(correction), &tape(master), n)).map(|entry| (entry.tape, entry.block))
    }

    /// The whole listing, and 15 behind it.
    fn all(correction: &str, master: &str) -> Vec<(Tape, usize)> {
        let mut entries = Vec::new();
        loop {
            let n = entries.len() as u64;
            match listed(correction, master, n) {
                Ok(entry) => entries.push(entry),
                refused => {
                    assert_eq!(refused, Err((15, n)));
                    assert_eq!(listed(correction, master, n + 1), Err((15, n)));
                    assert_eq!(listed(correction, master, u64::MAX), Err((15, n)));
                    return entries;
                }
            }
        }
    }

    #[test]
    fn rows_of_a_number() {
        assert_eq!(asked(CORRECTION, MASTER, 1), Ok((Correction, 30..35)));
        assert_eq!(asked(CORRECTION, MASTER, 2), Ok((Correction, 11..16)));
        assert_eq!(asked(CORRECTION, MASTER, 3), Ok((Master, 21..26)));
        assert_eq!(asked(CORRECTION, MASTER, 9), Ok((Correction, 6..11)));
        assert_eq!(asked(CORRECTION, MASTER, 4), Err((25, 0)));
        assert_eq!(asked("%\n", MASTER, 2), Ok((Master, 7..12)));
        assert_eq!(asked(CORRECTION, "%\n", 2), Ok((Correction, 11..16)));
        // what stands before a block since the end before it is its own
        assert_eq!(asked("%\n\0(N001\n)N001\r\n", "%\n", 1), Ok((Correction, 2..16)));
    }

    #[test]
    fn blocks_without_number_are_never_matched() {
        assert_eq!(asked("%\nG01\n", "%\nG02\n", 0), Err((25, 0)));
        assert_eq!(asked("%\nG01\n", "%\nN000\n", 0), Ok((Master, 2..7)));
        assert_eq!(asked("%\nG01\n", "%\nG02\n", MARK), Err((25, 0)));
        assert_eq!(all("%\nG01\n", "%\nG02\n"), [(Master, 0)]);
        assert_eq!(all("%\nN000\n", "%\nG02\n"), [(Master, 0), (Correction, 0)]);
        assert_eq!(all("%\nG01\n", "%\nN000\n"), [(Master, 0)]);
        assert_eq!(all("%\nG01\nN000\n", "%\nG02\nN000\n"), [(Master, 0), (Correction, 1)]);
        assert_eq!(all("%\nG01\n", "%\n"), []);
    }

    #[test]
    fn listings() {
        let entries = [(Correction, 6), (Correction, 2), (Master, 2), (Master, 3), (Master, 4), (Correction, 1)];
        assert_eq!(all(CORRECTION, MASTER), entries);
        assert_eq!(all("%\nN001\n", "%\nN001\nN001\n"), [(Correction, 0), (Master, 1)]);
        assert_eq!(all("%\nN001\nN001\n", "%\nN001\n"), [(Correction, 0)]);
        assert_eq!(all("%\nN005\nN004\nN005\n", "%\n"), [(Correction, 0), (Correction, 1)]);
        assert_eq!(all("%\n", "%\nN005\nG01\nN005\n"), [(Master, 0), (Master, 1), (Master, 2)]);
        assert_eq!(all("%\n", "%\n"), []);
    }

    #[test]
    fn the_order_of_refusals() {
        for (correction, master, due) in [
            ("%\nN", "%\nX", (14, 3)),
            ("%\n", "%\nX", (9, 2)),
            ("%\nN001\n", "%\nX", (9, 2)),
            ("%\nN", "%\nN001\n", (14, 3)),
            ("", "", (8, 0)),
            ("%\n", "", (8, 0)),
            // a late stage of the correction comes before an early one of the master
            ("%\nN001G1\n", "%\n!", (11, 8)),
        ] {
            for number in [1, 7, MARK] {
                assert_eq!(asked(correction, master, number), Err(due));
                assert_eq!(listed(correction, master, number), Err(due));
            }
        }
    }

    #[test]
    fn through_indexes() {
        let numbers = |text: &str| {
            let (mut firsts, mut numbers) = ([0; 9], [0; 9]);
            let mut index = Arrays { firsts: &mut firsts, numbers: &mut numbers };
            let count = build(&plain(), &tape(text), &mut index).unwrap() as usize;
            numbers[..count].to_vec()
        };
        for correction in [CORRECTION, MASTER, "%\n", "%\nG01\nN000\n"] {
            for master in [CORRECTION, MASTER, "%\n", "%\nG01\nN000\n"] {
                for n in 0..14 {
                    let indexed = told(indexed_entry(&numbers(correction), &numbers(master), n));
                    assert_eq!(indexed.map(|entry| (entry.tape, entry.block)), listed(correction, master, n));
                }
            }
        }
        assert_eq!(told(indexed_entry(&[], &[], 0)), Err((15, 0)));
        assert_eq!(told(indexed_entry(&[MARK], &[MARK], 1)), Err((15, 1)));
    }

    /// Asking for a number gives the block of the first entry that has it.
    #[test]
    fn both_ways_agree() {
        let numbers = |text: &str| {
            let mut roll = Roll::default();
            reading::read(&plain(), &tape(text), &mut roll).unwrap();
            roll
        };
        let (new, old) = (numbers(CORRECTION), numbers(MASTER));
        for number in 0..12 {
            let roll = |tape| if tape == Correction { &new } else { &old };
            let entries = all(CORRECTION, MASTER);
            let first = entries.iter().find(|&&(tape, block)| roll(tape).numbers[block] == Some(number));
            let rows = first.map(|&(tape, block)| (tape, roll(tape).after[block]..roll(tape).after[block + 1]));
            assert_eq!(asked(CORRECTION, MASTER, number).ok(), rows);
        }
    }
}
