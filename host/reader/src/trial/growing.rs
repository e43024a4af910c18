//! Makes lines on the index and on images: one image after another grows and shrinks, and its index is kept with it.

use super::chance::Chance;
use super::damage;
use super::indexed::{appended, Appended, Indexed, Places, Through, MOST_PLACES};
use super::inputs::{self, Ask, Input};
use super::lines::{make_sayable, told, Line, Posed};
use super::programs::{self, Plan};
use super::records::{self, Sound, MOST_ROOM};
use crate::index::{build, last_end, Arrays, Image, MARK};
use crate::punching::Record;
use crate::reading::{Block, Opening, Value};
use crate::rows::{punched, DEL, LF, MOST_ROWS, NUL};
use crate::specification::Specification;

/// An image of more rows is not grown any further.
const MOST_GROWN: usize = 1_000;
/// The most rows of the image of IL.
const MOST_LONG: usize = MOST_ROWS + 1;

fn posed(indexed: Indexed, known: Option<(u64, u64)>) -> Posed {
    Posed { line: Line::Indexed(Box::new(indexed)), known }
}

/// About `size` lines on images that grow and shrink, and on their indexes.
pub fn images(seed: u64, size: usize) -> Vec<Posed> {
    let chance = &mut Chance::new(seed);
    let mut lines = Vec::with_capacity(size + 300);
    while lines.len() < size {
        let mut growing = Growing::begun(chance);
        for _ in 0..1 + chance.below(60) {
            growing.step(chance, &mut lines);
            growing.ask(chance, &mut lines);
            if growing.image.len() > MOST_GROWN {
                break;
            }
        }
    }
    lines
}

/// An image with the index that is kept with it.
struct Growing {
    plan: Plan,
    image: Vec<u8>,
    firsts: Vec<u64>,
    numbers: Vec<u64>,
    /// the row just after the last end
    behind: usize,
    /// how many NUL and DEL rows stand there, where that is known from the making
    blanks: Option<usize>,
}

impl Growing {
    fn begun(chance: &mut Chance) -> Growing {
        let mut plan = programs::plan(chance);
        make_sayable(&mut plan.specification);
        let most = chance.one_of(&[0, 1, 3, 7]);
        let image = programs::tape(chance, &plan, most).rows;
        let (mut firsts, mut numbers) = (vec![0; MOST_PLACES], vec![0; MOST_PLACES]);
        let mut index = Arrays { firsts: &mut firsts, numbers: &mut numbers };
        let format = plan.specification.format().expect("a plan is sound");
        let count = build(&format, &image, &mut index).expect("its tape too") as usize;
        firsts.truncate(count);
        numbers.truncate(count);
        let behind = last_end(&format, &image).expect("its tape too");
        Growing { plan, image, firsts, numbers, behind, blanks: None }
    }

    fn step(&mut self, chance: &mut Chance, lines: &mut Vec<Posed>) {
        let (few, of) = if self.firsts.is_empty() { (1, 4) } else { (5, 12) };
        if chance.happens(few, of) {
            self.take_off(chance, lines);
        } else {
            self.append(chance, lines);
        }
    }

    fn take_off(&mut self, chance: &mut Chance, lines: &mut Vec<Posed>) {
        let room = chance.one_of(&[0, self.image.len(), self.image.len() + 1, self.image.len() + 9]);
        let taken = Indexed::TakeOff {
            specification: self.specification(),
            room,
            first: chance.below(256) as u8,
            tape: self.image.clone(),
        };
        let Some(first) = self.firsts.pop() else {
            return lines.push(posed(taken, Some((15, 0))));
        };
        lines.push(posed(taken, Some((0, 0))));
        self.numbers.pop();
        let first = first as usize;
        self.image[first..self.behind].fill(punched(DEL));
        self.blanks = self.blanks.map(|blanks| blanks + self.behind - first);
        self.behind = first;
    }

    fn append(&mut self, chance: &mut Chance, lines: &mut Vec<Posed>) {
        let Sound { mut record, needed } = records::sound(chance, &self.plan);
        self.repeat_a_number(chance, &mut record);
        if chance.happens(1, 2) {
            self.lay_tail(chance, needed);
        }
        let places = self.places(chance, self.firsts.len() + 1);
        let room = self.room(chance, needed);
        let known = if chance.happens(1, 6) {
            records::one_fault(chance, &self.plan, &mut record).err().map(told)
        } else {
            self.due(&places, room, needed)
        };
        let Appended { answer, buffer, firsts, numbers } =
            appended(&self.plan.specification, &places, room, &record, &self.image);
        let (specification, tape) = (self.specification(), self.image.clone());
        lines.push(posed(Indexed::Append { specification, places, room, record: Box::new(record), tape }, known));
        if let Ok(Image { rows, blocks }) = answer {
            self.grow(&buffer[..rows], needed, firsts[blocks - 1], numbers[blocks - 1]);
        }
    }

    /// What the append of a sound block of `needed` rows must answer, as far as it is known from the making.
    fn due(&self, places: &Places, room: usize, needed: usize) -> Option<(u64, u64)> {
        let entries = self.firsts.len() + 1;
        if places.least() < entries {
            return Some((24, entries as u64));
        }
        let rows = self.image.len() + needed;
        let fits = self.blanks? >= needed || rows <= room;
        Some(if fits { (0, 0) } else { (19, rows as u64) })
    }

    /// Takes over an image that has grown.
    fn grow(&mut self, image: &[u8], needed: usize, first: u64, number: u64) {
        self.firsts.push(first);
        self.numbers.push(number);
        if image.len() > self.image.len() {
            self.behind = image.len();
            self.blanks = Some(0);
        } else {
            self.behind += needed;
            self.blanks = self.blanks.map(|blanks| blanks - needed);
        }
        self.image = image.to_vec();
    }

    /// Numbers may repeat.
    fn repeat_a_number(&self, chance: &mut Chance, record: &mut Record) {
        let known: Vec<u64> = self.numbers.iter().copied().filter(|&number| number != MARK).collect();
        if record.opening.numbered && !known.is_empty() && chance.happens(1, 3) {
            record.opening.sequence = chance.one_of(&known);
        }
    }

    /// Another leader and other remarks behind the last end, made for a block of `needed` rows.
    fn lay_tail(&mut self, chance: &mut Chance, needed: usize) {
        self.image.truncate(self.behind);
        let few = chance.below(10);
        let before = match chance.below(8) {
            0 => 0,
            1 | 2 => needed,
            3 => needed - 1,
            4 => chance.below(needed),
            5 => 0,
            6 => needed - 1,
            _ => needed + few,
        };
        self.image.extend(blank_rows(chance, before));
        if chance.happens(1, 2) {
            self.image.extend(remark(chance));
            let after = chance.one_of(&[0, needed, needed + few]);
            self.image.extend(blank_rows(chance, after));
        }
        self.blanks = Some(before);
    }

    /// Arrays for so many entries: just enough, one place too few in either or both, or more.
    fn places(&self, chance: &mut Chance, entries: usize) -> Places {
        let (firsts, numbers) = match chance.below(24) {
            0 => (0, 0),
            1 => (entries - 1, entries - 1),
            2 => (entries - 1, entries),
            3 => (entries, entries - 1),
            4 => (entries - 1, entries + chance.below(4)),
            5 => (entries + chance.below(4), entries - 1),
            6..=15 => (entries, entries),
            16..=19 => (entries + chance.below(4), entries + chance.below(4)),
            _ => (entries + 2, entries + 2),
        };
        Places { firsts: firsts.min(MOST_PLACES), numbers: numbers.min(MOST_PLACES), first: chance.below(256) as u8 }
    }

    /// A buffer for the image and `needed` rows more: just enough, one short, or larger.
    fn room(&self, chance: &mut Chance, needed: usize) -> usize {
        let rows = self.image.len();
        match chance.below(16) {
            0 => 0,
            1 => rows,
            2 | 3 => rows + needed - 1,
            4 => rows + chance.below(needed),
            5..=10 => rows + needed,
            _ => rows + needed + chance.below(30),
        }
    }

    fn specification(&self) -> Specification {
        self.plan.specification.clone()
    }

    /// The index and what is found through it, a damaged image and a foreign index.
    fn ask(&self, chance: &mut Chance, lines: &mut Vec<Posed>) {
        match chance.below(12) {
            0..=3 => lines.push(self.kept(chance)),
            4..=5 => lines.push(self.lookup(chance)),
            6 => lines.push(self.full(chance)),
            7 => lines.push(self.numbers(chance)),
            8 => lines.push(self.odd_row(chance)),
            9 => lines.push(self.other_row(chance)),
            10 => lines.push(self.damaged(chance)),
            _ => lines.push(self.foreign(chance)),
        }
    }

    /// The index that was kept so far is the one that is built.
    fn kept(&self, chance: &mut Chance) -> Posed {
        let more = chance.one_of(&[0, 0, 1, 3]);
        let places = (self.firsts.len() + more).min(MOST_PLACES);
        let places = Places { firsts: places, numbers: places, first: chance.below(256) as u8 };
        let Growing { image, firsts, numbers, .. } = self;
        let (specification, tape) = (self.specification(), image.clone());
        posed(Indexed::Kept { specification, places, tape, firsts: firsts.clone(), numbers: numbers.clone() }, Some((0, 0)))
    }

    /// An index for which there may be no room.
    fn full(&self, chance: &mut Chance) -> Posed {
        let entries = self.firsts.len();
        let places = self.places(chance, entries.max(1));
        let known = if places.least() < entries { (24, entries as u64) } else { (0, 0) };
        posed(Indexed::Build { specification: self.specification(), places, tape: self.image.clone() }, Some(known))
    }

    /// A block as a record, or its rows.
    fn looked_up(&self, chance: &mut Chance, n: u64, firsts: Vec<u64>, tape: Vec<u8>) -> Indexed {
        let through = Through { specification: self.specification(), n, firsts, tape };
        if chance.happens(1, 2) {
            Indexed::Block(through)
        } else {
            Indexed::Rows(through)
        }
    }

    /// A block that is there, most often, by the right index.
    fn lookup(&self, chance: &mut Chance) -> Posed {
        let count = self.firsts.len();
        let far = chance.one_of(&[count as u64, count as u64 + 1, 1 << 32, u64::MAX]);
        let n = if count == 0 || chance.happens(1, 6) { far } else { chance.below(count) as u64 };
        let known = if n < count as u64 { (0, 0) } else { (15, count as u64) };
        posed(self.looked_up(chance, n, self.firsts.clone(), self.image.clone()), Some(known))
    }

    /// A row with an odd number of holes anywhere: only the block whose own rows it is among is refused for it.
    fn odd_row(&self, chance: &mut Chance) -> Posed {
        if self.firsts.is_empty() {
            return self.lookup(chance);
        }
        let mut tape = self.image.clone();
        let at = chance.below(tape.len());
        tape[at] ^= damage::holes(chance, 1);
        let its = self.firsts.iter().rposition(|&first| first as usize <= at);
        let n = match its {
            Some(its) if chance.happens(2, 3) => its,
            _ => chance.below(self.firsts.len()),
        };
        let known = if its == Some(n) { (5, at as u64) } else { (0, 0) };
        posed(self.looked_up(chance, n as u64, self.firsts.clone(), tape), Some(known))
    }

    /// Another character among the own rows of a block.
    fn other_row(&self, chance: &mut Chance) -> Posed {
        if self.firsts.is_empty() {
            return self.lookup(chance);
        }
        let n = chance.below(self.firsts.len());
        let first = self.firsts[n] as usize;
        let end = self.firsts.get(n + 1).map_or(self.behind, |&next| next as usize);
        let mut tape = self.image.clone();
        tape[first + chance.below(end - first)] = punched(chance.one_of(b"N:X0019+-/\t\r\n%() "));
        posed(self.looked_up(chance, n as u64, self.firsts.clone(), tape), None)
    }

    /// Anything done to the image.
    fn damaged(&self, chance: &mut Chance) -> Posed {
        let mut tape = self.image.clone();
        damage::tape(chance, &mut tape);
        let places = self.places(chance, self.firsts.len() + 1);
        let specification = self.specification();
        let line = match chance.below(5) {
            0 => Indexed::Build { specification, places, tape },
            1 => Indexed::TakeOff { specification, room: tape.len(), first: places.first, tape },
            2 => {
                let Sound { mut record, needed } = records::sound(chance, &self.plan);
                if chance.happens(1, 2) {
                    // a fault of the record can't speak before the tape's
                    let _ = records::one_fault(chance, &self.plan, &mut record);
                }
                let room = tape.len() + chance.below(2 * needed);
                Indexed::Append { specification, places, room, record: Box::new(record), tape }
            }
            _ => {
                let n = chance.below(self.firsts.len() + 1) as u64;
                self.looked_up(chance, n, self.firsts.clone(), tape)
            }
        };
        posed(line, None)
    }

    /// A block by an index that was not made for this image.
    fn foreign(&self, chance: &mut Chance) -> Posed {
        let mut firsts = self.firsts.clone();
        for _ in 0..1 + chance.below(3) {
            self.estrange(chance, &mut firsts);
        }
        let n = chance.below(firsts.len() + 1) as u64;
        posed(self.looked_up(chance, n, firsts, self.image.clone()), None)
    }

    fn estrange(&self, chance: &mut Chance, firsts: &mut Vec<u64>) {
        let any = chance.below(self.image.len() + 3) as u64;
        let far = chance.one_of(&[self.image.len() as u64, self.image.len() as u64 + 1, 1 << 32, u64::MAX, any, any]);
        if firsts.is_empty() || chance.happens(1, 6) {
            return firsts.insert(chance.below(firsts.len() + 1), far);
        }
        let at = chance.below(firsts.len());
        match chance.below(7) {
            0 => firsts[at] = far,
            1 => firsts[at] = firsts[at].wrapping_add(1),
            2 => firsts[at] = firsts[at].saturating_sub(1),
            3 => firsts[at] = any,
            4 => {
                let other = chance.below(firsts.len());
                firsts.swap(at, other);
            }
            5 => {
                firsts.remove(at);
            }
            _ => firsts[at] = firsts[at].wrapping_add(chance.below(12) as u64),
        }
    }

    /// The first block with a number that some have, or none, or with the mark.
    fn numbers(&self, chance: &mut Chance) -> Posed {
        let mut numbers = self.numbers.clone();
        for _ in 0..chance.below(3) {
            let more = chance.one_of(&[0, 1, 7, 999, MARK - 1, MARK]);
            numbers.insert(chance.below(numbers.len() + 1), more);
        }
        let strange = chance.one_of(&[0, 1, 1_000, MARK - 1, MARK]);
        let number = if numbers.is_empty() || chance.happens(1, 3) { strange } else { chance.one_of(&numbers) };
        let there = number != MARK && numbers.contains(&number);
        posed(Indexed::Number { number, numbers }, Some((if there { 0 } else { 25 }, 0)))
    }
}

/// NUL and DEL, of one kind or mixed.
fn blank_rows(chance: &mut Chance, count: usize) -> Vec<u8> {
    let kinds = chance.one_of(&[&[NUL][..], &[DEL], &[NUL, DEL]]);
    (0..count).map(|_| punched(chance.one_of(kinds))).collect()
}

/// A control-out, with what looks like a blank, a block or an end in it.
fn remark(chance: &mut Chance) -> Vec<u8> {
    let mut text = vec![b'('];
    for _ in 0..chance.below(6) {
        text.extend_from_slice(chance.one_of(&["A", "\0", "\x7F", "\n", "(", "N001\n", " "]).as_bytes());
    }
    text.push(b')');
    text.into_iter().map(punched).collect()
}

/// About `size` lines on tapes and specifications of all kinds, most of which are refused before the index has a say.
pub fn refused(seed: u64, size: usize) -> Vec<Posed> {
    let chance = &mut Chance::new(seed);
    inputs::tapes(seed, size).into_iter().filter_map(|input| judged_before(chance, input)).collect()
}

fn judged_before(chance: &mut Chance, input: Input) -> Option<Posed> {
    let Ask::Count { mut specification, tape } = input.ask else { return None };
    make_sayable(&mut specification);
    // what a tape is refused with is the same whatever is asked of the whole of it
    let known = input.known.filter(|known| known.number != 0).map(|known| (known.number, known.place));
    let first = chance.below(256) as u8;
    let places = Places { firsts: chance.below(9), numbers: chance.below(9), first };
    let room = tape.len() + chance.below(60);
    let line = match chance.below(6) {
        0 | 1 if room <= MOST_ROOM => {
            let record = Box::new(records::records(chance.number(), 1).remove(0).0.record);
            Indexed::Append { specification, places, room, record, tape }
        }
        2 | 3 if room <= MOST_ROOM => Indexed::TakeOff { specification, room, first, tape },
        4 => {
            let firsts = behind_line_feeds(&tape);
            let n = chance.below(firsts.len().max(1)) as u64;
            let through = Through { specification, n, firsts, tape };
            let line = if chance.happens(1, 2) { Indexed::Block(through) } else { Indexed::Rows(through) };
            // and what a specification is refused with, whatever the tape is
            return Some(posed(line, known.filter(|known| matches!(known.0, 1..=3 | 22 | 23))));
        }
        _ => Indexed::Build { specification, places, tape },
    };
    Some(posed(line, known))
}

/// What could be the first rows of a tape's blocks, whatever stands on it.
fn behind_line_feeds(tape: &[u8]) -> Vec<u64> {
    let ends = (1..).zip(tape).filter(|(_, &row)| row == punched(LF));
    ends.map(|(after, _)| after).take(MOST_PLACES).collect()
}

/// Images at the row limit.
pub fn limits() -> Vec<Posed> {
    let mut lines = Vec::new();
    for needed in [5, 12] {
        for rows in [MOST_ROWS - needed - 1, MOST_ROWS - needed, MOST_ROWS - needed + 1, MOST_ROWS, MOST_LONG] {
            for room in [0, rows + needed - 1, rows + needed] {
                // the buffer of such a line has no more rows
                if room <= MOST_LONG {
                    lines.extend([0, 1].map(|places| limit(places, room, rows, needed)));
                }
            }
        }
    }
    lines
}

/// Tape, record, 24, 4 and 19 in their order.
fn limit(places: usize, room: usize, rows: usize, needed: usize) -> Posed {
    let record = match needed {
        5 => Block { opening: Opening::numbered(2), words: Vec::new() },
        _ => Block { opening: Opening::numbered(2), words: vec![(b'X', Value::Dimension(7))] },
    };
    let known = match rows + needed {
        _ if rows > MOST_ROWS => (4, 1_000_000),
        _ if places == 0 => (24, 1),
        all if all > MOST_ROWS => (4, 1_000_000),
        all if all > room => (19, all as u64),
        _ => (0, 0),
    };
    let (specification, places) = (Specification::new(2539, "N3X42*", ""), Places { firsts: places, numbers: places, first: 0 });
    posed(Indexed::Long { specification, places, room, rows, record: Box::new(Record::from(&record)) }, Some(known))
}

#[cfg(test)]
mod tests {
    use super::*;
    use crate::index::find_block;
    use crate::reading::{block_rows, read_block};

    /// Number and place are as they were made, and the index kept so far is always the one built anew.
    #[test]
    fn images_are_answered_as_they_were_made() {
        let mut kept = 0;
        for Posed { line, known } in images(7, 6_000).into_iter().chain(refused(8, 2_000)).chain(limits()) {
            let Line::Indexed(indexed) = line else { unreachable!() };
            let reply = indexed.answer();
            assert!(known.is_none_or(|known| known == (reply.number, reply.place)), "{}", indexed.text().escape_ascii());
            let Indexed::Kept { specification, places, tape, .. } = *indexed else { continue };
            let built = Indexed::Build { specification, places, tape };
            assert_eq!(built.answer().to_string(), reply.to_string());
            kept += 1;
        }
        assert!(kept > 500, "{kept}");
    }

    /// Through the index that is kept, each block is what the walk finds.
    #[test]
    fn found_as_by_the_walk() {
        let chance = &mut Chance::new(9);
        for _ in 0..30 {
            let mut growing = Growing::begun(chance);
            for _ in 0..20 {
                growing.step(chance, &mut Vec::new());
                let format = growing.plan.specification.format().unwrap();
                let Growing { image, firsts, .. } = &growing;
                for n in 0..=firsts.len() as u64 {
                    let found = find_block(&format, image, firsts, n);
                    assert_eq!(found.clone().map(|(block, _)| block), read_block(&format, image, n));
                    assert_eq!(found.map(|(_, rows)| &image[rows]), block_rows(&format, image, n));
                }
            }
        }
    }
}
