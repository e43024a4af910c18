//! The index of a tape's blocks, and the image that it is kept with: a block appended, the last one taken off.

use crate::punching::{self, Record};
use crate::reading::{self, Block, Opening, Value, Visitor};
use crate::rows::{self, punched, DEL, MOST_ROWS, NUL};
use crate::shorthand::Format;
use crate::Refusal;
use std::ops::Range;

/// The mark for a missing number.
pub const MARK: u64 = u64::MAX;

/// What an index is kept in. Each may have another number of places.
pub struct Arrays<'a> {
    /// the first row of each block
    pub firsts: &'a mut [u64],
    /// the number of each block, or the mark
    pub numbers: &'a mut [u64],
}

impl Arrays<'_> {
    /// 24 where one of the arrays has fewer places than `entries`.
    fn judge_room(&self, entries: usize) -> Result<(), Refusal> {
        if self.firsts.len().min(self.numbers.len()) < entries {
            return Err(Refusal::new(24, entries));
        }
        Ok(())
    }

    fn enter(&mut self, at: usize, Entry { first, number }: Entry) {
        self.firsts[at] = first as u64;
        self.numbers[at] = number;
    }
}

/// What an image is after it was changed.
#[derive(Clone, Copy, Debug, PartialEq, Eq)]
pub struct Image {
    /// how many rows it has
    pub rows: usize,
    /// how many blocks stand on it
    pub blocks: usize,
}

/// What the index keeps of a block.
#[derive(Clone, Copy)]
struct Entry {
    /// the row just after the end before it
    first: usize,
    number: u64,
}

/// All that a walk over a tape finds for its index.
#[derive(Default)]
struct Survey {
    entries: Vec<Entry>,
    /// the row just after the last end so far
    behind: usize,
}

impl Visitor for Survey {
    fn block(&mut self, opening: Opening) {
        self.entries.push(Entry { first: self.behind, number: number_of(opening) });
    }
    fn word(&mut self, _: u8, _: Value) {}
    fn end(&mut self, after: usize) {
        self.behind = after;
    }
}

fn number_of(opening: Opening) -> u64 {
    if opening.numbered {
        opening.sequence
    } else {
        MARK
    }
}

fn survey(format: &Format, tape: &[u8]) -> Result<Survey, Refusal> {
    let mut survey = Survey::default();
    reading::read(format, tape, &mut survey)?;
    Ok(survey)
}

/// The row just after the last end of `tape`: its head's, or its last block's.
pub fn last_end(format: &Format, tape: &[u8]) -> Result<usize, Refusal> {
    survey(format, tape).map(|survey| survey.behind)
}

/// Builds the index of `tape` and answers how many blocks it has.
pub fn build(format: &Format, tape: &[u8], index: &mut Arrays) -> Result<u64, Refusal> {
    let Survey { entries, .. } = survey(format, tape)?;
    index.judge_room(entries.len())?;
    for (at, &entry) in entries.iter().enumerate() {
        index.enter(at, entry);
    }
    Ok(entries.len() as u64)
}

/// Appends the block of `record` to the image in the first `rows` rows of `buffer`, and its entry to the index.
pub fn append(format: &Format, buffer: &mut [u8], rows: usize, index: &mut Arrays, record: &Record) -> Result<Image, Refusal> {
    let Survey { entries, behind } = survey(format, &buffer[..rows])?;
    let block = punching::block_rows(format, record)?;
    let count = entries.len();
    index.judge_room(count + 1)?;
    let at = site(&buffer[..rows], behind, block.len(), buffer.len())?;
    buffer[at..at + block.len()].copy_from_slice(&block);
    // what stands before a block since the end before it is its own, wherever its characters are
    index.enter(count, Entry { first: behind, number: number_of(record.opening) });
    Ok(Image { rows: rows.max(at + block.len()), blocks: count + 1 })
}

/// Where `size` rows go: into the NUL and DEL rows just after the last end where they fit there, else after the last row.
fn site(tape: &[u8], behind: usize, size: usize, capacity: usize) -> Result<usize, Refusal> {
    let blank = |&row: &u8| row == punched(NUL) || row == punched(DEL);
    if tape[behind..].iter().copied().take_while(blank).count() >= size {
        return Ok(behind);
    }
    let needed = tape.len() + size;
    if needed > MOST_ROWS {
        return Err(Refusal::new(4, MOST_ROWS));
    }
    if needed > capacity {
        return Err(Refusal::new(19, needed));
    }
    Ok(tape.len())
}

/// Takes the last block off the image in the first `rows` rows of `buffer`: its rows become DEL.
pub fn take_off(format: &Format, buffer: &mut [u8], rows: usize) -> Result<Image, Refusal> {
    let Survey { entries, behind } = survey(format, &buffer[..rows])?;
    let last = entries.last().ok_or(Refusal::new(15, 0))?;
    buffer[last.first..behind].fill(punched(DEL));
    Ok(Image { rows, blocks: entries.len() - 1 })
}

/// Block `n` of `tape` and where its rows are, by the first rows of all blocks.
pub fn find_block(format: &Format, tape: &[u8], firsts: &[u64], n: u64) -> Result<(Block, Range<usize>), Refusal> {
    if tape.len() > MOST_ROWS {
        return Err(Refusal::new(4, MOST_ROWS));
    }
    let there = firsts.len();
    let n = usize::try_from(n).ok().filter(|&n| n < there).ok_or(Refusal::new(15, there))?;
    let within = |row: u64| usize::try_from(row).unwrap_or(usize::MAX);
    let first = within(firsts[n]);
    let end = firsts.get(n + 1).map_or(tape.len(), |&next| within(next).min(tape.len()));
    // no later block's rows, and none of what stands before, have a say
    let cut = &tape[..end];
    let own = cut.get(first..).ok_or(Refusal::new(14, end))?;
    judge(own).map_err(|refusal| Refusal { place: refusal.place + first as u64, ..refusal })?;
    let mut found = Found { blocks: Vec::new(), end: first };
    reading::read_at(format, cut, first, &mut found)?;
    let end = found.end;
    found.blocks.pop().map(|block| (block, first..end)).ok_or(Refusal::new(14, cut.len()))
}

/// The first three stages.
fn judge(rows: &[u8]) -> Result<(), Refusal> {
    rows::judge(rows)?;
    reading::judge_control_outs(rows)
}

/// A block, and the row just after its LF.
struct Found {
    blocks: Vec<Block>,
    end: usize,
}

impl Visitor for Found {
    fn block(&mut self, opening: Opening) {
        self.blocks.block(opening);
    }
    fn word(&mut self, letter: u8, value: Value) {
        self.blocks.word(letter, value);
    }
    fn end(&mut self, after: usize) {
        self.end = after;
    }
}

/// The first block with that number, by the numbers of all blocks. No block has the mark for its number.
pub fn find_number(numbers: &[u64], number: u64) -> Result<u64, Refusal> {
    let first = numbers.iter().position(|&entry| entry == number && entry != MARK);
    first.map(|at| at as u64).ok_or(Refusal::new(25, 0))
}

#[cfg(test)]
mod tests {
    use super::*;
    use crate::rows::LF;
    use crate::shorthand::parse;

    /// "o" is NUL and "x" DEL.
    fn tape(text: &str) -> Vec<u8> {
        let character = |byte| match byte {
            b'o' => NUL,
            b'x' => DEL,
            _ => byte,
        };
        text.bytes().map(|byte| punched(character(byte))).collect()
    }

    fn plain() -> Format {
        parse(2539, b"N3X42*").unwrap()
    }

    fn numbered(sequence: u64) -> Record {
        Record::from(&Block { opening: Opening::numbered(sequence), words: Vec::new() })
    }

    fn unnumbered(x: i64) -> Record {
        Record::from(&Block { opening: Opening::BARE, words: vec![(b'X', Value::Dimension(x))] })
    }

    type Told<T> = Result<T, (u32, u64)>;

    fn told<T>(result: Result<T, Refusal>) -> Told<T> {
        result.map_err(|refusal| (refusal.number, refusal.place))
    }

    /// The index built for `text` in arrays of those places; of a refusal nothing may be changed.
    fn built(text: &str, [room, other]: [usize; 2]) -> Told<(Vec<u64>, Vec<u64>)> {
        let (mut firsts, mut numbers) = (vec![77; room], vec![88; other]);
        let count = build(&plain(), &tape(text), &mut Arrays { firsts: &mut firsts, numbers: &mut numbers });
        match count {
            Ok(count) => {
                let count = count as usize;
                assert!(firsts[count..].iter().all(|&first| first == 77) && numbers[count..].iter().all(|&number| number == 88));
                firsts.truncate(count);
                numbers.truncate(count);
            }
            Err(_) => assert_eq!((&firsts, &numbers), (&vec![77; room], &vec![88; other])),
        }
        told(count).map(|_| (firsts, numbers))
    }

    /// The image after an append, and the new entry.
    fn appended(text: &str, capacity: usize, room: usize, record: &Record) -> Told<(Vec<u8>, (u64, u64))> {
        let image = tape(text);
        let mut buffer = image.clone();
        buffer.resize(capacity.max(image.len()), 85);
        let before = buffer.clone();
        let (mut firsts, mut numbers) = (vec![77; room], vec![88; room]);
        let mut index = Arrays { firsts: &mut firsts, numbers: &mut numbers };
        let answer = append(&plain(), &mut buffer, image.len(), &mut index, record);
        let Ok(Image { rows, blocks }) = answer else {
            assert_eq!((buffer, firsts, numbers), (before, vec![77; room], vec![88; room]));
            return told(answer).map(|_| unreachable!());
        };
        assert_eq!(buffer[rows..], before[rows..]);
        let others = |array: &[u64], old| array.iter().enumerate().all(|(at, &entry)| at == blocks - 1 || entry == old);
        assert!(others(&firsts, 77) && others(&numbers, 88));
        buffer.truncate(rows);
        Ok((buffer, (firsts[blocks - 1], numbers[blocks - 1])))
    }

    fn taken_off(text: &str) -> Told<(Vec<u8>, usize)> {
        let image = tape(text);
        let mut buffer = [&image[..], &[85, 10]].concat();
        let answer = take_off(&plain(), &mut buffer, image.len());
        assert_eq!(buffer.split_off(image.len()), [85, 10]);
        if let Ok(Image { rows, .. }) = answer {
            assert_eq!(rows, image.len());
        } else {
            assert_eq!(buffer, image);
        }
        told(answer).map(|Image { blocks, .. }| (buffer, blocks))
    }

    fn found(text: &[u8], firsts: &[u64], n: u64) -> Told<Range<usize>> {
        told(find_block(&plain(), text, firsts, n)).map(|(_, rows)| rows)
    }

    const THREE: &str = "%\nN001\no(R)N002\nX000001\n";

    #[test]
    fn indexes() {
        assert_eq!(built(THREE, [3, 3]), Ok((vec![2, 7, 16], vec![1, 2, MARK])));
        assert_eq!(built(THREE, [5, 4]), Ok((vec![2, 7, 16], vec![1, 2, MARK])));
        for room in [[2, 2], [3, 2], [2, 3], [0, 9]] {
            assert_eq!(built(THREE, room), Err((24, 3)));
        }
        assert_eq!(built("%\n", [0, 0]), Ok((vec![], vec![])));
        assert_eq!(built("%\nN0", [0, 0]), Err((14, 4)));
        assert_eq!(built("o%\r\noo(\n)N001\r\nooo", [1, 1]), Ok((vec![4], vec![1])));
    }

    #[test]
    fn blocks_through_an_index() {
        let text = tape(THREE);
        let rows = [2..7, 7..16, 16..24];
        for (n, rows) in rows.into_iter().enumerate() {
            assert_eq!(found(&text, &[2, 7, 16], n as u64), Ok(rows));
        }
        assert_eq!(found(&text, &[2, 7, 16], 3), Err((15, 3)));
        assert_eq!(found(&text, &[2, 7, 16], u64::MAX), Err((15, 3)));
        assert_eq!(found(&text, &[], 0), Err((15, 0)));
        // what stands behind the last block is not its own, but is judged with it
        assert_eq!(found(&tape("%\nN001\no(A)"), &[2], 0), Ok(2..7));
        assert_eq!(found(&tape("%\nN001\no(A"), &[2], 0), Err((7, 8)));
        assert_eq!(found(&tape("%\nN001\no(A"), &[2, 7], 0), Ok(2..7));
    }

    #[test]
    fn damage_and_foreign_indexes() {
        let mut text = tape(THREE);
        text[8] ^= 1;
        assert_eq!(found(&text, &[2, 7, 16], 0), Ok(2..7));
        assert_eq!(found(&text, &[2, 7, 16], 1), Err((5, 8)));
        assert_eq!(found(&text, &[2, 7, 16], 2), Ok(16..24));
        text[8] = 33;
        assert_eq!(found(&text, &[2, 7, 16], 1), Err((6, 8)));
        // in the middle of a block, a first row past the own end or past the tape, and an end past it
        let text = tape(THREE);
        assert_eq!(found(&text, &[3, 7], 0), Err((9, 3)));
        assert_eq!(found(&text, &[2, 4], 0), Err((14, 4)));
        assert_eq!(found(&text, &[2, 2], 0), Err((14, 2)));
        assert_eq!(found(&text, &[7, 2], 0), Err((14, 2)));
        assert_eq!(found(&text, &[24], 0), Err((14, 24)));
        assert_eq!(found(&text, &[25], 0), Err((14, 24)));
        assert_eq!(found(&text, &[u64::MAX], 0), Err((14, 24)));
        assert_eq!(found(&text, &[16, u64::MAX], 0), Ok(16..24));
        assert_eq!(found(&text, &[9, 16], 0), Err((7, 10)));
        assert_eq!(found(&vec![0; MOST_ROWS + 1], &[], 0), Err((4, 1_000_000)));
    }

    #[test]
    fn appends_into_blanks_and_behind() {
        let two = numbered(2);
        let grown = |text: &str, number| Ok((tape(text), (2, number)));
        assert_eq!(appended("%\noxooo", 7, 1, &two), grown("%\nN002\n", 2));
        assert_eq!(appended("%\noxoo", 12, 1, &two), grown("%\noxooN002\n", 2));
        assert_eq!(appended("%\noxoo", 11, 1, &two), grown("%\noxooN002\n", 2));
        assert_eq!(appended("%\noxoo", 10, 1, &two), Err((19, 11)));
        assert_eq!(appended("%\n(A)oooooo", 16, 1, &two), grown("%\n(A)ooooooN002\n", 2));
        assert_eq!(appended("%\nooooo(A)o", 0, 1, &two), grown("%\nN002\n(A)o", 2));
        assert_eq!(appended("%\nooo(A)ooo", 20, 1, &two), grown("%\nooo(A)oooN002\n", 2));
        assert_eq!(appended("%\n", 11, 1, &unnumbered(1)), grown("%\nX000001\n", MARK));
        assert_eq!(appended("%\nN001\nooooo", 12, 2, &two), Ok((tape("%\nN001\nN002\n"), (7, 2))));
    }

    #[test]
    fn the_order_of_refusals() {
        assert_eq!(appended("%\nN001\noooo", 11, 2, &numbered(2)), Err((19, 16)));
        assert_eq!(appended("%\nN001\noooo", 11, 1, &numbered(2)), Err((24, 2)));
        assert_eq!(appended("%\nN001\noooo", 11, 1, &numbered(1_000)), Err((17, 0)));
        assert_eq!(appended("%N001\n", 11, 0, &numbered(1_000)), Err((8, 1)));
        assert_eq!(appended("%\n", 11, 1, &unnumbered(-1)), Err((17, 1)));
        // an image that would pass the limit, whatever room the buffer has
        let most = |rows: usize| format!("%\n(){}", "o".repeat(rows - 4));
        assert_eq!(appended(&most(MOST_ROWS - 4), MOST_ROWS + 9, 1, &numbered(2)), Err((4, 1_000_000)));
        assert_eq!(appended(&most(MOST_ROWS - 4), 0, 1, &numbered(2)), Err((4, 1_000_000)));
        assert_eq!(appended(&most(MOST_ROWS - 4), 0, 0, &numbered(2)), Err((24, 1)));
        assert_eq!(appended(&most(MOST_ROWS - 5), 0, 1, &numbered(2)), Err((19, 1_000_000)));
        assert_eq!(appended(&most(MOST_ROWS - 5), MOST_ROWS, 1, &numbered(2)).map(|grown| grown.1), Ok((2, 2)));
    }

    #[test]
    fn takings_off() {
        assert_eq!(taken_off("%\nN001\noN002\no"), Ok((tape("%\nN001\nxxxxxxo"), 1)));
        assert_eq!(taken_off("%\n(A)N001\n"), Ok((tape("%\nxxxxxxxx"), 0)));
        assert_eq!(taken_off("%\n"), Err((15, 0)));
        assert_eq!(taken_off("%\nooo(N001\n)"), Err((15, 0)));
        assert_eq!(taken_off("%\nN001"), Err((14, 6)));
    }

    #[test]
    fn what_was_taken_off_fits_again() {
        let format = plain();
        let (mut firsts, mut numbers) = ([0; 2], [0; 2]);
        let mut buffer = tape("%\n(A)N001\noo");
        let rows = buffer.len();
        let image = take_off(&format, &mut buffer, rows).unwrap();
        assert_eq!(image, Image { rows, blocks: 0 });
        for (blocks, sequence) in [(1, 8), (2, 9)] {
            let mut index = Arrays { firsts: &mut firsts, numbers: &mut numbers };
            let image = append(&format, &mut buffer, rows, &mut index, &numbered(sequence)).unwrap();
            assert_eq!(image, Image { rows, blocks });
        }
        assert_eq!(buffer, tape("%\nN008\nN009\n"));
        assert_eq!((firsts, numbers), ([2, 7], [8, 9]));
    }

    #[test]
    fn numbers() {
        let (_, numbers) = built("%\nX000001\nN000\nN007\nN007\n", [4, 4]).unwrap();
        assert_eq!(numbers, [MARK, 0, 7, 7]);
        assert_eq!(told(find_number(&numbers, 0)), Ok(1));
        assert_eq!(told(find_number(&numbers, 7)), Ok(2));
        assert_eq!(told(find_number(&numbers, 8)), Err((25, 0)));
        assert_eq!(told(find_number(&numbers, MARK)), Err((25, 0)));
        assert_eq!(told(find_number(&numbers[..1], 0)), Err((25, 0)));
        assert_eq!(told(find_number(&[], 0)), Err((25, 0)));
    }

    /// By an index that was built for the tape, each block is what the walk finds.
    #[test]
    fn as_the_walk_finds() {
        let format = plain();
        let text = tape("o%\nN001X000005\r\n(\n)oo/X000001\nxx:007\n");
        let (mut firsts, mut numbers) = ([0; 3], [0; 3]);
        let mut index = Arrays { firsts: &mut firsts, numbers: &mut numbers };
        assert_eq!(build(&format, &text, &mut index), Ok(3));
        for n in 0..3 {
            let (block, rows) = find_block(&format, &text, &firsts, n).unwrap();
            assert_eq!(Ok(block), reading::read_block(&format, &text, n));
            assert_eq!(Ok(&text[rows.clone()]), reading::block_rows(&format, &text, n));
            assert_eq!(text[rows.end - 1], punched(LF));
        }
    }
}
