//! Reading a tape: the four stages, and the blocks handed to a visitor as they are found.

use crate::rows::{self, CR, DEL, HT, LF, NUL};
use crate::shorthand::{Dropped, Format, Item, Kind, Layout, Sign};
use crate::speeds::{self, Speed};
use crate::Refusal;
use std::fmt;

/// How a block begins.
#[derive(Clone, Copy, Debug, PartialEq, Eq)]
pub struct Opening {
    /// "/" stands before it
    pub skip: bool,
    /// ":" stands for N
    pub alignment: bool,
    /// it has a sequence number
    pub numbered: bool,
    /// that number; without one, 0 after reading
    pub sequence: u64,
}

impl Opening {
    /// That of a block with neither "/" nor number.
    pub const BARE: Opening = Opening { skip: false, alignment: false, numbered: false, sequence: 0 };

    /// N and that number.
    pub fn numbered(sequence: u64) -> Opening {
        Opening { numbered: true, sequence, ..Opening::BARE }
    }

    /// The number, if there is one.
    pub fn number(&self) -> Option<u64> {
        self.numbered.then_some(self.sequence)
    }
}

/// The value of a word.
#[derive(Clone, Copy, Debug, PartialEq, Eq)]
pub enum Value {
    /// in the last decimal place
    Dimension(i64),
    /// of G, M or T
    Plain(u64),
    /// of F or S, or of a feed E or D
    Speed(Speed),
}

/// In plain decimal; a stop and a rapid by their names.
impl fmt::Display for Value {
    fn fmt(&self, to: &mut fmt::Formatter<'_>) -> fmt::Result {
        match self {
            Value::Dimension(number) => write!(to, "{number}"),
            Value::Plain(number) => write!(to, "{number}"),
            Value::Speed(speed) => write!(to, "{speed}"),
        }
    }
}

/// What is told of a tape while it is read. On a refusal all that was told is void.
pub trait Visitor {
    /// A block begins.
    fn block(&mut self, opening: Opening);
    /// A word of the block begun last.
    fn word(&mut self, letter: u8, value: Value);
    /// The head or a block has ended just before the row `after`.
    fn end(&mut self, _after: usize) {}
}

/// Only counts the blocks.
#[derive(Default)]
pub struct Count {
    /// how many began
    pub blocks: u64,
}

impl Visitor for Count {
    fn block(&mut self, _: Opening) {
        self.blocks += 1;
    }
    fn word(&mut self, _: u8, _: Value) {}
}

/// A block with its words.
#[derive(Clone, Debug, PartialEq, Eq)]
pub struct Block {
    /// how it begins
    pub opening: Opening,
    /// its words in the order of the tape
    pub words: Vec<(u8, Value)>,
}

impl Visitor for Vec<Block> {
    fn block(&mut self, opening: Opening) {
        self.push(Block { opening, words: Vec::new() });
    }
    fn word(&mut self, letter: u8, value: Value) {
        if let Some(block) = self.last_mut() {
            block.words.push((letter, value));
        }
    }
}

/// Where the head and each block end, by the row just after their LF.
#[derive(Default)]
pub struct Ends {
    /// the head's first
    pub after: Vec<usize>,
}

impl Visitor for Ends {
    fn block(&mut self, _: Opening) {}
    fn word(&mut self, _: u8, _: Value) {}
    fn end(&mut self, after: usize) {
        self.after.push(after);
    }
}

/// Block `n` of `tape`, from 0.
pub fn read_block(format: &Format, tape: &[u8], n: u64) -> Result<Block, Refusal> {
    let mut blocks = Vec::new();
    read(format, tape, &mut blocks)?;
    let there = blocks.len();
    usize::try_from(n).ok().filter(|&n| n < there).map(|n| blocks.swap_remove(n)).ok_or(Refusal::new(15, there))
}

/// The rows of block `n`: from just after the end before it to its own LF.
pub fn block_rows<'t>(format: &Format, tape: &'t [u8], n: u64) -> Result<&'t [u8], Refusal> {
    let mut ends = Ends::default();
    read(format, tape, &mut ends)?;
    let there = ends.after.len() - 1;
    let n = usize::try_from(n).ok().filter(|&n| n < there).ok_or(Refusal::new(15, there))?;
    Ok(&tape[ends.after[n]..ends.after[n + 1]])
}

/// Reads the whole of `tape`. A stage starts only when the one before has passed the whole tape.
pub fn read<V: Visitor>(format: &Format, tape: &[u8], visitor: &mut V) -> Result<(), Refusal> {
    rows::judge(tape)?;
    judge_control_outs(tape)?;
    let mut reader = Reader::over(tape);
    reader.head(visitor)?;
    while reader.here().is_some() {
        reader.block(format, visitor)?;
    }
    Ok(())
}

/// Reads the one block that begins at the row `from` of `tape`, which has passed the stages before.
pub fn read_at<V: Visitor>(format: &Format, tape: &[u8], from: usize, visitor: &mut V) -> Result<(), Refusal> {
    let mut reader = Reader { tape, place: from };
    reader.pass_over();
    reader.block(format, visitor)
}

/// Stage 3: "(" opens, the first ")" closes, and neither ":" nor "%" stands between.
pub fn judge_control_outs(tape: &[u8]) -> Result<(), Refusal> {
    let character = |at: usize| tape[at] & 0x7F;
    let mut at = 0;
    while at < tape.len() {
        if character(at) == b')' {
            return Err(Refusal::new(7, at));
        }
        if character(at) == b'(' {
            let Some(length) = tape[at..].iter().position(|row| row & 0x7F == b')') else {
                // whatever is wrong inside stands above the "(" that is never closed
                return Err(Refusal::new(7, at));
            };
            let inside = &tape[at..at + length];
            if let Some(wrong) = inside.iter().position(|row| matches!(row & 0x7F, b':' | b'%')) {
                return Err(Refusal::new(7, at + wrong));
            }
            at += length;
        }
        at += 1;
    }
    Ok(())
}

/// Stage 4 over what stage 3 leaves. It always stands on a row that is left, or at the tape's length.
struct Reader<'t> {
    tape: &'t [u8],
    place: usize,
}

impl<'t> Reader<'t> {
    fn over(tape: &'t [u8]) -> Self {
        let mut reader = Reader { tape, place: 0 };
        reader.pass_over();
        reader
    }

    /// The character here; none at the end of the tape.
    #[inline]
    fn here(&self) -> Option<u8> {
        self.tape.get(self.place).map(|row| row & 0x7F)
    }

    #[inline]
    fn step(&mut self) {
        self.place += 1;
        self.pass_over();
    }

    /// Passes over NUL, DEL and control-outs.
    #[inline]
    fn pass_over(&mut self) {
        loop {
            match self.here() {
                Some(NUL | DEL) => self.place += 1,
                Some(b'(') => self.pass_over_control_out(),
                _ => return,
            }
        }
    }

    #[cold]
    fn pass_over_control_out(&mut self) {
        while self.here().is_some_and(|character| character != b')') {
            self.place += 1;
        }
        self.place += 1;
    }

    /// The refusal `number` here, or 14 where the tape ends.
    #[cold]
    fn wrong(&self, number: u32) -> Refusal {
        let number = if self.place < self.tape.len() { number } else { 14 };
        Refusal::new(number, self.place)
    }

    /// "%" and an end. Place and tape length are the same thing where the tape ends too soon.
    fn head<V: Visitor>(&mut self, visitor: &mut V) -> Result<(), Refusal> {
        if self.here() != Some(b'%') {
            return Err(Refusal::new(8, self.place));
        }
        self.step();
        let end = self.place;
        if self.here() == Some(CR) {
            self.step();
        }
        match self.here() {
            Some(LF) => self.line_feed(visitor),
            None => return Err(Refusal::new(8, self.place)),
            Some(_) => return Err(Refusal::new(8, end)),
        }
        Ok(())
    }

    /// Steps over the LF that ends the head or a block.
    #[inline]
    fn line_feed<V: Visitor>(&mut self, visitor: &mut V) {
        visitor.end(self.place + 1);
        self.step();
    }

    fn block<V: Visitor>(&mut self, format: &Format, visitor: &mut V) -> Result<(), Refusal> {
        let opening = self.opening(format)?;
        visitor.block(opening);
        let worded = match format.layout {
            Layout::Addresses => self.words(format, visitor)?,
            Layout::Both => self.tabbed_words(format, visitor)?,
            Layout::Tabs => self.words_without_addresses(format, visitor)?,
        };
        self.end(opening.numbered || worded, visitor)
    }

    /// "/" or not, and the sequence word or none.
    #[inline]
    fn opening(&mut self, format: &Format) -> Result<Opening, Refusal> {
        let skip = self.here() == Some(b'/');
        if skip {
            self.step();
        }
        let alignment = match self.here() {
            Some(b'N') => false,
            Some(b':') => true,
            _ if self.stands_without_number(format) => return Ok(Opening { skip, ..Opening::BARE }),
            _ => return Err(self.wrong(9)),
        };
        self.step();
        let (sequence, _) = self.digits(format.sequence, format.sequence, 9)?;
        Ok(Opening { skip, alignment, numbered: true, sequence })
    }

    /// Whether a block without number stands here: its first tab or word, or its end at once, which is judged as an end. A
    /// shorthand without items has neither tab nor word.
    fn stands_without_number(&self, format: &Format) -> bool {
        let begins = |character| match character {
            LF | CR => true,
            _ if format.layout.has_tabs() => character == HT,
            _ => format.items.iter().any(|item| item.letter == character),
        };
        format.unnumbered && self.here().is_some_and(begins)
    }

    /// Each tab steps to the next item; its word follows, or nothing. Whether there was a word.
    fn tabbed_words<V: Visitor>(&mut self, format: &Format, visitor: &mut V) -> Result<bool, Refusal> {
        let mut due = format.items.iter();
        let mut worded = false;
        while self.here() == Some(HT) {
            let item = due.next().ok_or_else(|| self.wrong(10))?;
            self.step();
            if self.here() == Some(item.letter) {
                visitor.word(item.letter, self.word(item)?);
                worded = true;
            }
        }
        Ok(worded)
    }

    /// Each tab steps to the next item; the digits of its word follow, with a sign or not, or nothing. Whether there was a
    /// word. Merged into `block` it would slow the two others down.
    #[inline(never)]
    fn words_without_addresses<V: Visitor>(&mut self, format: &Format, visitor: &mut V) -> Result<bool, Refusal> {
        let mut due = format.items.iter();
        let mut worded = false;
        while self.here() == Some(HT) {
            let item = due.next().ok_or_else(|| self.wrong(10))?;
            self.step();
            if matches!(self.here(), Some(b'0'..=b'9' | b'+' | b'-')) {
                visitor.word(item.letter, self.data(item, self.place)?);
                worded = true;
            }
        }
        Ok(worded)
    }

    /// Words in the shorthand's order, each at most once. Whether there was one.
    fn words<V: Visitor>(&mut self, format: &Format, visitor: &mut V) -> Result<bool, Refusal> {
        let mut due = format.items.iter();
        let mut worded = false;
        while let Some(letter @ b'A'..=b'Z') = self.here() {
            let item = due.find(|item| item.letter == letter).ok_or_else(|| self.wrong(10))?;
            visitor.word(letter, self.word(item)?);
            worded = true;
        }
        Ok(worded)
    }

    /// LF, or CR directly before LF, of a block that has something: of one with neither number nor word the LF is wrong.
    fn end<V: Visitor>(&mut self, something: bool, visitor: &mut V) -> Result<(), Refusal> {
        match self.here() {
            Some(LF) => {}
            Some(CR) => {
                let own = self.place;
                self.step();
                match self.here() {
                    Some(LF) => {}
                    None => return Err(self.wrong(10)),
                    Some(_) => return Err(Refusal::new(10, own)),
                }
            }
            _ => return Err(self.wrong(10)),
        }
        if !something {
            return Err(self.wrong(9));
        }
        self.line_feed(visitor);
        Ok(())
    }

    /// The word of `item`, from its address on.
    #[inline]
    fn word(&mut self, item: &Item) -> Result<Value, Refusal> {
        let address = self.place;
        self.step();
        self.data(item, address)
    }

    /// The sign and digits of `item`, in a word that began at `beginning`: at its address or, without one, here. A speed
    /// has no sign, so that this is then its first digit.
    #[inline]
    fn data(&mut self, item: &Item, beginning: usize) -> Result<Value, Refusal> {
        let signed = matches!(self.here(), Some(b'+' | b'-'));
        let minus = self.here() == Some(b'-');
        match (item.sign, signed) {
            (Sign::Barred, true) | (Sign::Required, false) => return Err(self.wrong(12)),
            (_, true) => self.step(),
            (_, false) => {}
        }
        let (number, count) = self.digits(item.least, item.most, 11)?;
        let dimension = |number: u64| if minus { -(number as i64) } else { number as i64 };
        Ok(match item.kind {
            Kind::Plain => Value::Plain(number),
            Kind::Speed => Value::Speed(speeds::meaning(item.most, number).ok_or(Refusal::new(13, beginning))?),
            Kind::Dimension { dropped: Dropped::Trailing, .. } => {
                Value::Dimension(dimension(number * 10u64.pow(item.most - count)))
            }
            Kind::Dimension { .. } => Value::Dimension(dimension(number)),
        })
    }

    /// All digits that stand here, `least` to `most` of them: their number and their count.
    #[inline]
    fn digits(&mut self, least: u32, most: u32, refusal: u32) -> Result<(u64, u32), Refusal> {
        let (mut number, mut count) = (0, 0);
        while let Some(digit @ b'0'..=b'9') = self.here() {
            if count == most {
                return Err(self.wrong(refusal));
            }
            number = number * 10 + u64::from(digit - b'0');
            count += 1;
            self.step();
        }
        if count < least {
            return Err(self.wrong(refusal));
        }
        Ok((number, count))
    }
}

#[cfg(test)]
mod tests {
    use super::*;
    use crate::rows::punched;
    use crate::specification::Specification;
    use crate::{count_blocks, shorthand};

    const PLAIN: &str = "N3.G2.X+42.F3.M2*";

    fn tape(text: &str) -> Vec<u8> {
        text.bytes().map(punched).collect()
    }

    /// The number and place of the answer, with the count for a place where it is 0.
    fn answer(edition: u32, shorthand: &str, text: &str) -> (u32, u64) {
        judged(&Specification::new(edition, shorthand, ""), text)
    }

    fn judged(specification: &Specification, text: &str) -> (u32, u64) {
        match count_blocks(specification, &tape(text)) {
            Ok(count) => (0, count),
            Err(refusal) => (refusal.number, refusal.place),
        }
    }

    fn first_word(shorthand: &str, text: &str) -> Value {
        let format = shorthand::parse(2539, shorthand.as_bytes()).unwrap();
        let mut blocks = Vec::new();
        read(&format, &tape(text), &mut blocks).unwrap();
        blocks[0].words[0].1
    }

    #[test]
    fn dropped_zeros() {
        assert_eq!(first_word("N3X+042*", "%\nN001X+5\n"), Value::Dimension(5));
        assert_eq!(first_word("N3X+420*", "%\nN001X+5\n"), Value::Dimension(500_000));
        assert_eq!(first_word("N3X+420*", "%\nN001X-05\n"), Value::Dimension(-50_000));
        assert_eq!(first_word("N3X+42*", "%\nN001X-000000\n"), Value::Dimension(0));
    }

    #[test]
    fn heads() {
        assert_eq!(answer(1057, PLAIN, ""), (8, 0));
        assert_eq!(answer(1057, PLAIN, "%"), (8, 1));
        assert_eq!(answer(1057, PLAIN, "%\n"), (0, 0));
        assert_eq!(answer(1057, PLAIN, "%\r\n"), (0, 0));
        assert_eq!(answer(1057, PLAIN, "%\r"), (8, 2));
        assert_eq!(answer(1057, PLAIN, "%\rN"), (8, 1));
        assert_eq!(answer(1057, PLAIN, "%\r\r\n"), (8, 1));
        assert_eq!(answer(1057, PLAIN, "\n%\n"), (8, 0));
        assert_eq!(answer(1057, PLAIN, "\0(A(B)\x7F%\0\r(X\n)\n\0"), (0, 0));
    }

    #[test]
    fn control_outs() {
        assert_eq!(answer(1057, PLAIN, "%\n(A(B)"), (0, 0));
        assert_eq!(answer(1057, PLAIN, "%\n(A)B)"), (7, 6));
        assert_eq!(answer(1057, PLAIN, "%\n(A%B)"), (7, 4));
        assert_eq!(answer(1057, PLAIN, "%\n(A%B"), (7, 2));
        assert_eq!(answer(1057, PLAIN, "%\n(A)(B:(C)"), (7, 7));
        assert_eq!(answer(1057, PLAIN, "N\n("), (7, 2));
    }

    #[test]
    fn openings() {
        assert_eq!(answer(1057, PLAIN, "%\nX"), (9, 2));
        assert_eq!(answer(1057, PLAIN, "%\n/"), (14, 3));
        assert_eq!(answer(1057, PLAIN, "%\n//N001\n"), (9, 3));
        assert_eq!(answer(1057, PLAIN, "%\n:001\n/:001\n"), (0, 2));
        assert_eq!(answer(1057, PLAIN, "%\nN01\n"), (9, 5));
        assert_eq!(answer(1057, PLAIN, "%\nN0001\n"), (9, 6));
        assert_eq!(answer(1057, PLAIN, "%\nN01"), (14, 5));
        assert_eq!(answer(1057, PLAIN, "%\nN001"), (14, 6));
    }

    #[test]
    fn openings_by_1057() {
        let without_n = |rows: &str| answer(1057, "N3.X+42*", &format!("%\n{rows}"));
        for rows in ["\tX+000005\n", "\t\n", "\n", "\r\n", "\r\t", "\r", "X+000005\n", "\t"] {
            assert_eq!(without_n(rows), (9, 2), "{rows:?}");
            assert_eq!(without_n(&format!("/{rows}")), (9, 3), "{rows:?}");
            assert_eq!(without_n(&format!("N001\n{rows}")), (9, 7), "{rows:?}");
        }
        assert_eq!(without_n(":\tX+000005\n"), (9, 3));
        assert_eq!(without_n("/"), (14, 3));
    }

    #[test]
    fn the_worked_cases_without_numbers() {
        let format = shorthand::parse(2539, b"N3X+042*").unwrap();
        let text = "%\nX5\nN007X6\n/X7\n";
        let x = |opening, value| Block { opening, words: vec![(b'X', Value::Dimension(value))] };
        let due = vec![x(Opening::BARE, 5), x(Opening::numbered(7), 6), x(Opening { skip: true, ..Opening::BARE }, 7)];
        let mut blocks = Vec::new();
        assert_eq!(read(&format, &tape(text), &mut blocks), Ok(()));
        assert_eq!(blocks, due);
        assert_eq!(block_rows(&format, &tape(text), 0), Ok(&tape("X5\n")[..]));
        assert_eq!(block_rows(&format, &tape(text), 2), Ok(&tape("/X7\n")[..]));
        assert_eq!(answer(2539, "N3X+042*", "%\n\n"), (9, 2));
        assert_eq!(answer(2539, "N3X+042*", "%\n/\n"), (9, 3));
        assert_eq!(answer(2539, "N3X+042*", "%\n:X5\n"), (9, 3));
        assert_eq!(answer(2539, "N3.X+042*", "%\n\tX5\n"), (0, 1));
        assert_eq!(answer(2539, "N3.X+042*", "%\nX5\n"), (9, 2));
        assert_eq!(answer(2539, "N3.X+042*", "%\n\t\n"), (9, 3));
        assert_eq!(answer(1057, "N3.X+42*", "%\n\tX+000005\n"), (9, 2));
    }

    /// Number 0 is a number.
    #[test]
    fn a_missing_number_is_not_number_0() {
        let format = shorthand::parse(2539, b"N3X+042*").unwrap();
        let opening = |text| read_block(&format, &tape(text), 0).map(|block| block.opening);
        assert_eq!(opening("%\nN000X5\n"), Ok(Opening::numbered(0)));
        assert_eq!(opening("%\nX5\n"), Ok(Opening::BARE));
        assert_ne!(Opening::numbered(0), Opening::BARE);
        assert_eq!(answer(2539, "N3X+042*", "%\nN000\n"), (0, 1));
    }

    /// What stands where a block would begin, behind the head, behind a block and behind "/", of all three layouts and of a
    /// shorthand without items.
    #[test]
    fn where_a_block_would_begin() {
        let before = ["%\n", "%\nN001\n", "%\n/", "%\n(A\n)/\0"];
        let layouts = [("N3G2X+042*", ""), ("N3.G2.X+042*", ""), ("N3.G2.X+042*", "LTM110A"), ("N3*", ""), ("N3*", "LTM000A")];
        for (shorthand, profile) in layouts {
            let specification = Specification::new(2539, shorthand, profile);
            let tabs = shorthand.contains('.');
            for before in before {
                let here = before.len() as u64;
                let judged = |rows: &str| judged(&specification, &format!("{before}{rows}"));
                assert_eq!(judged("\n"), (9, here));
                assert_eq!(judged("\r\n"), (9, here + 1));
                assert_eq!(judged("\r\0(A\n)\n"), (9, here + 6));
                assert_eq!(judged("\rN001\n"), (10, here));
                assert_eq!(judged("\r\r\n"), (10, here));
                assert_eq!(judged("\r"), (14, here + 1));
                assert_eq!(judged("\r\x7F"), (14, here + 2));
                assert_eq!(judged(":\n"), (9, here + 1));
                assert_eq!(judged(":\tX5\n"), (9, here + 1));
                assert_eq!(judged("N\n"), (9, here + 1));
                for other in "%+-0 \x08YZ".chars() {
                    assert_eq!(judged(&format!("{other}01\n")), (9, here), "{other:?}");
                }
                // letters begin a block where there are no tabs, and a tab where there are
                let letters = if shorthand == "N3G2X+042*" { 0 } else { 9 };
                assert_eq!([judged("X5\n").0, judged("G01\n").0], [letters; 2]);
                if !tabs {
                    assert_eq!(judged("\tX5\n"), (9, here));
                }
                if before.contains('/') {
                    assert_eq!(judged("/N001\n"), (9, here));
                    assert_eq!(judged(""), (14, here));
                }
            }
        }
    }

    #[test]
    fn tabs_without_number() {
        for (profile, [g, x, f]) in [("", ["G", "X", "F"]), ("LTM110A", [""; 3])] {
            let specification = Specification::new(2539, "N3.G2.X+042.F3*", profile);
            let judged = |rows: &str| judged(&specification, &format!("%\n{rows}"));
            let address = x.len() as u64;
            assert_eq!(judged(&format!("\t{g}01\n\t\t{x}5\n/\t\t\t{f}615\n")), (0, 3));
            assert_eq!(judged(&format!("/\t\t{x}5\t\r\n\t\0(A)\t{x}6\n")), (0, 2));
            // tabs and no word
            assert_eq!(judged("\t\n"), (9, 3));
            assert_eq!(judged("\t\t\t\n"), (9, 5));
            assert_eq!(judged("/\t\r\n"), (9, 5));
            assert_eq!(judged("\t\r\t\n"), (10, 3));
            assert_eq!(judged("\t\rN001\n"), (10, 3));
            assert_eq!(judged("\t\r"), (14, 4));
            assert_eq!(judged("\t"), (14, 3));
            // and with a word
            assert_eq!(judged(&format!("\t\t{x}5\r\t")), (10, 5 + address));
            assert_eq!(judged(&format!("\t\t{x}5\r")), (14, 6 + address));
            assert_eq!(judged(&format!("\t\t{x}5")), (14, 5 + address));
            // all other faults as behind a number
            assert_eq!(judged("\t\t\t\t\n"), (10, 5));
            assert_eq!(judged("\tN001\n"), (10, 3));
            assert_eq!(judged("\t/\n"), (10, 3));
            assert_eq!(judged("\t\tY5\n"), (10, 4));
            assert_eq!(judged(&format!("\t\t{x}+\n")), (11, 5 + address));
            assert_eq!(judged(&format!("\t\t\t{f}+615\n")), (12, 5 + address));
            assert_eq!(judged(&format!("\t\t\t{f}605\n")), (13, 5));
        }
        // an address that is not due
        assert_eq!(answer(2539, "N3.G2.X+042*", "%\n\tX5\n"), (10, 3));
    }

    #[test]
    fn words_without_number() {
        let judged = |rows: &str| answer(2539, "N3G2X+042F3*", &format!("%\n{rows}"));
        // any item may stand first, and the order is the shorthand's
        assert_eq!(judged("G01\nX5\nF615\nG01X5\r\nX5F615\n/F000\n"), (0, 6));
        assert_eq!(judged("X5G01\n"), (10, 4));
        assert_eq!(judged("X5X5\n"), (10, 4));
        assert_eq!(judged("X5N001\n"), (10, 4));
        assert_eq!(judged("X5\t\n"), (10, 4));
        assert_eq!(judged("X\n"), (11, 3));
        assert_eq!(judged("G+1\n"), (12, 3));
        assert_eq!(judged("F605\n"), (13, 2));
        assert_eq!(judged("X5\r\r"), (10, 4));
        assert_eq!(judged("X5\r"), (14, 5));
        assert_eq!(judged("X5"), (14, 4));
        assert_eq!(judged("X"), (14, 3));
        assert_eq!(judged("\0(A)X\x7F5\n(B\n)"), (0, 1));
        assert_eq!(judged("M02\n"), (9, 2));
    }

    #[test]
    fn tabs_and_ends() {
        assert_eq!(answer(1057, PLAIN, "%\nN001\t\t\t\t\n"), (0, 1));
        assert_eq!(answer(1057, PLAIN, "%\nN001\t\t\t\t\t\n"), (10, 10));
        assert_eq!(answer(1057, PLAIN, "%\nN001G01\n"), (10, 6));
        assert_eq!(answer(1057, PLAIN, "%\nN001\tX+012500\n"), (10, 7));
        assert_eq!(answer(1057, PLAIN, "%\nN001\tG01\r\n"), (0, 1));
        assert_eq!(answer(1057, PLAIN, "%\nN001\tG01\r\t\n"), (10, 10));
        assert_eq!(answer(1057, PLAIN, "%\nN001\tG01\r"), (14, 11));
        assert_eq!(answer(1057, PLAIN, "%\nN001\tG01\r(REMARK)\n"), (0, 1));
        assert_eq!(answer(2539, "N3G2X42*", "%\nN001X000000G01\n"), (10, 13));
        assert_eq!(answer(2539, "N3G2X42*", "%\nN001G01G01\n"), (10, 9));
        assert_eq!(answer(2539, "N3G2X42*", "%\nN001\tG01\n"), (10, 6));
    }

    #[test]
    fn words() {
        assert_eq!(answer(1057, PLAIN, "%\nN001\tG1\n"), (11, 9));
        assert_eq!(answer(1057, PLAIN, "%\nN001\tG012\n"), (11, 10));
        assert_eq!(answer(1057, PLAIN, "%\nN001\tG+01\n"), (12, 8));
        assert_eq!(answer(1057, PLAIN, "%\nN001\t\tX000000\n"), (12, 9));
        assert_eq!(answer(1057, PLAIN, "%\nN001\t\tX"), (14, 9));
        assert_eq!(answer(1057, PLAIN, "%\nN001\t\tX\n"), (12, 9));
        assert_eq!(answer(1057, PLAIN, "%\nN001\t\tX+-00000\n"), (11, 10));
        assert_eq!(answer(2539, PLAIN, "%\nN001\t\tX000000\n"), (0, 1));
        assert_eq!(answer(2539, "N3.X42*", "%\nN001\tX+00000\n"), (12, 8));
        assert_eq!(answer(2539, "N3.X042*", "%\nN001\tX\n"), (11, 8));
        assert_eq!(answer(2539, "N3.X042*", "%\nN001\tX1234567\n"), (11, 14));
    }

    #[test]
    fn speed_words() {
        assert_eq!(answer(1057, "N3.F3*", "%\nN001\tF100\n"), (13, 7));
        assert_eq!(answer(1057, "N3.F3*", "%\nN001\tF1000\n"), (11, 11));
        assert_eq!(answer(1057, "N3.F3*", "%\nN001\tF100"), (13, 7));
        assert_eq!(answer(1057, "N3.F3*", "%\nN001\tF10"), (14, 10));
        assert_eq!(answer(1057, "N3.F3*", "%\nN001\tF000\n"), (0, 1));
    }

    #[test]
    fn speed_words_of_two_digits() {
        let speed = |code| first_word("N3F2S2*", &format!("%\nN001S{code}\n"));
        assert_eq!(speed("00"), Value::Speed(Speed::Stop));
        assert_eq!(speed("99"), Value::Speed(Speed::Rapid));
        assert_eq!(speed("46"), Value::Speed(Speed::Rate(2_000_000_000)));
        // all zeros of three digits are a rate
        assert_eq!(first_word("N3F3S2*", "%\nN001F000\n"), Value::Speed(Speed::Rate(0)));
        // none of the hundred codes is barred
        for code in 0..100 {
            assert_eq!(answer(2539, "N3.F2*", &format!("%\nN001\tF{code:02}\n")), (0, 1));
        }
        assert_eq!(answer(2539, "N3.F2*", "%\nN001\tF+1\n"), (12, 8));
        assert_eq!(answer(2539, "N3.F2*", "%\nN001\tF1\n"), (11, 9));
        assert_eq!(answer(2539, "N3.F2*", "%\nN001\tF100\n"), (11, 10));
        assert_eq!(answer(2539, "N3.F2*", "%\nN001\tF0"), (14, 9));
        assert_eq!(answer(1057, "N3.F2*", "%\n"), (3, 2));
    }

    #[test]
    fn words_of_e_and_d() {
        // speeds by feeds, numbers by dimensions
        assert_eq!(first_word("N3E3*", "%\nN001E717\n"), Value::Speed(Speed::Rate(17_000_000_000)));
        assert_eq!(first_word("N3D12*", "%\nN001D717\n"), Value::Dimension(717));
        let feeds = "N3.X+42.E3.Y+42.F3.D4*";
        assert_eq!(answer(1057, feeds, "%\nN001\tX+012500\tE615\tY-000001\tF000\tD5153\n"), (0, 1));
        assert_eq!(answer(1057, feeds, "%\nN001\t\tE615\t\t\tD0000\n"), (0, 1));
        // no sign, all digits, and a second digit that is not zero
        assert_eq!(answer(1057, feeds, "%\nN001\t\tE+15\n"), (12, 9));
        assert_eq!(answer(1057, feeds, "%\nN001\t\tE61\n"), (11, 11));
        assert_eq!(answer(1057, feeds, "%\nN001\t\tE605\n"), (13, 8));
        assert_eq!(answer(1057, feeds, "%\nN001\t\t\t\tD615\n"), (10, 10));
        // in the shorthand's order
        assert_eq!(answer(2539, "N3X42E3Y42F3D4*", "%\nN001E615F615D5153\n"), (0, 1));
        assert_eq!(answer(2539, "N3X42E3Y42F3D4*", "%\nN001E615X000000\n"), (10, 10));
        assert_eq!(answer(2539, "N3X42E3Y42F3D4*", "%\nN001D5153F615\n"), (10, 11));
    }

    #[test]
    fn one_block_and_its_rows() {
        let format = shorthand::parse(1057, PLAIN.as_bytes()).unwrap();
        let text = "\0%\r\n\0(A\n)/N001\tG01\r(B)\n\x7F:002\n\0";
        let tape = tape(text);
        let rows = |n| block_rows(&format, &tape, n);
        assert_eq!(rows(0), Ok(&tape[4..23]));
        assert_eq!(rows(1), Ok(&tape[23..29]));
        assert_eq!(rows(2), Err(Refusal::new(15, 2)));
        assert_eq!(rows(u64::MAX), Err(Refusal::new(15, 2)));
        let first = Opening { skip: true, ..Opening::numbered(1) };
        let second = Opening { alignment: true, ..Opening::numbered(2) };
        let block = |n| read_block(&format, &tape, n);
        assert_eq!(block(0), Ok(Block { opening: first, words: vec![(b'G', Value::Plain(1))] }));
        assert_eq!(block(1), Ok(Block { opening: second, words: vec![] }));
        assert_eq!(block(2), Err(Refusal::new(15, 2)));
        assert_eq!(read_block(&format, &tape[..10], 7), Err(Refusal::new(14, 10)));
    }

    #[test]
    fn a_later_stage_waits_for_the_earlier_one() {
        let mut rows = tape("X(");
        let count = |shorthand, profile, rows: &[u8]| count_blocks(&Specification::new(1057, shorthand, profile), rows);
        assert_eq!(count(PLAIN, "", &rows), Err(Refusal::new(7, 1)));
        rows.push(33);
        assert_eq!(count(PLAIN, "", &rows), Err(Refusal::new(6, 2)));
        rows.push(1);
        assert_eq!(count(PLAIN, "", &rows), Err(Refusal::new(5, 3)));
        rows.resize(rows::MOST_ROWS + 1, 0);
        assert_eq!(count(PLAIN, "IPM111", &rows), Err(Refusal::new(4, rows::MOST_ROWS)));
        assert_eq!(count(PLAIN, "IPM121", &rows), Err(Refusal::new(23, 0)));
        assert_eq!(count(PLAIN, "IPM12", &rows), Err(Refusal::new(22, 5)));
        assert_eq!(count("N", "IPM12", &rows), Err(Refusal::new(2, 1)));
        assert_eq!(count_blocks(&Specification::new(0, "N", "IPM12"), &rows), Err(Refusal::new(1, 0)));
    }

    /// Words known by their tabs alone: G, a signed X without its leading zeros, Y without a sign, F and T.
    fn by_tab(text: &str) -> (u32, u64) {
        judged(&Specification::new(2539, "N3.G2.X+042.Y42.F3.T1*", "LTM221A"), &format!("%\n{text}"))
    }

    #[test]
    fn the_worked_cases_without_addresses() {
        let worked = |text| judged(&Specification::new(2539, "N3.G2.X+042*", "LTM110A"), text);
        assert_eq!(worked("%\nN001\t01\t5\nN002\t\t-0\nN003\t\t\n"), (0, 3));
        assert_eq!(worked("%\nN004\tG01\n"), (10, 7));
        assert_eq!(worked("%\nN005\t+01\n"), (12, 7));
    }

    #[test]
    fn words_by_their_tabs() {
        let format = Specification::new(2539, "N3.G2.X+042.E3.ID420*", "LTM110B").format().unwrap();
        let mut blocks = Vec::new();
        read(&format, &tape("%\nN001\t01\t-\x005\t615\t-5\r\n:002\t\t(A\n)+000012\t000\n/N003\t\t0\n"), &mut blocks).unwrap();
        let (g, x, i) = (Value::Plain(1), Value::Dimension, Value::Dimension(-500_000));
        let e = |units| Value::Speed(Speed::Rate(units));
        let first = vec![(b'G', g), (b'X', x(-5)), (b'E', e(1_500_000_000)), (b'I', i)];
        let words: Vec<_> = blocks.into_iter().map(|block| block.words).collect();
        assert_eq!(words, [first, vec![(b'X', x(12)), (b'E', e(0))], vec![(b'X', x(0))]]);
    }

    #[test]
    fn tabs_and_ends_without_addresses() {
        assert_eq!(by_tab("N001\nN002\t\t\t\t\t\nN003\t01\t\t\r\nN004\t\t\t\t\t1\n"), (0, 4));
        assert_eq!(by_tab("N001\t\t\t\t\t\t\n"), (10, 11));
        assert_eq!(by_tab("N001\t\t\t\t\t1\t\n"), (10, 12));
        // a word is due only behind its tab
        assert_eq!(by_tab("N001+5\n"), (10, 6));
        assert_eq!(by_tab("N001G01\n"), (10, 6));
        for other in "GXN%/: ".chars() {
            assert_eq!(by_tab(&format!("N001\t{other}01\n")), (10, 7), "{other:?}");
            assert_eq!(by_tab(&format!("N001\t01{other}\n")), (10, 9), "{other:?}");
        }
        assert_eq!(by_tab("N001\t\r\t\n"), (10, 7));
        assert_eq!(by_tab("N001\t"), (14, 7));
        assert_eq!(by_tab("N001\t01"), (14, 9));
        assert_eq!(by_tab("N001\t01\r"), (14, 10));
    }

    #[test]
    fn signs_and_digits_without_addresses() {
        for sign in "+-".chars() {
            assert_eq!(by_tab(&format!("N001\t{sign}01\n")), (12, 7));
            assert_eq!(by_tab(&format!("N001\t\t\t{sign}\n")), (12, 9));
            assert_eq!(by_tab(&format!("N001\t\t\t\t{sign}615\n")), (12, 10));
            assert_eq!(by_tab(&format!("N001\t\t\t\t\t{sign}\n")), (12, 11));
            assert_eq!(by_tab(&format!("N001\t\t{sign}1\n")), (0, 1));
            // a sign is no word
            assert_eq!(by_tab(&format!("N001\t\t{sign}\n")), (11, 9));
            assert_eq!(by_tab(&format!("N001\t\t{sign}\t\n")), (11, 9));
            assert_eq!(by_tab(&format!("N001\t\t{sign}X1\n")), (11, 9));
            assert_eq!(by_tab(&format!("N001\t\t{sign}-1\n")), (11, 9));
            assert_eq!(by_tab(&format!("N001\t\t{sign}")), (14, 9));
        }
        assert_eq!(by_tab("N001\t1\n"), (11, 8));
        assert_eq!(by_tab("N001\t012\n"), (11, 9));
        assert_eq!(by_tab("N001\t\t1234567\n"), (11, 14));
        assert_eq!(by_tab("N001\t\t\t12345\n"), (11, 14));
        assert_eq!(by_tab("N001\t\t\t1-\n"), (11, 10));
        assert_eq!(by_tab("N001\t1"), (14, 8));
    }

    #[test]
    fn speeds_without_addresses() {
        assert_eq!(by_tab("N001\t\t\t\t605\n"), (13, 10));
        assert_eq!(by_tab("N001\t\t\t\t\0(REMARK)605\n"), (13, 19));
        assert_eq!(by_tab("N001\t\t\t\t605"), (13, 10));
        assert_eq!(by_tab("N001\t\t\t\t6051\n"), (11, 13));
        assert_eq!(by_tab("N001\t\t\t\t60\n"), (11, 12));
        assert_eq!(by_tab("N001\t\t\t\t000\n"), (0, 1));
        let two_digits = |text: &str| judged(&Specification::new(2539, "N3.F2.S2*", "LTM000A"), text);
        assert_eq!(two_digits("%\nN001\t00\t99\nN002\t\t10\n"), (0, 2));
        assert_eq!(two_digits("%\nN001\t0\t99\n"), (11, 8));
    }
}
