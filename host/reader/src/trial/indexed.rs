//! Lines of two letters: the index of a tape's blocks, and the image that it is kept with.

use super::inputs::lent;
use super::lines::{asked, block_reply, handed_back, judged, parts_text, record_text, rows_text, spelt, Line, Reply};
use crate::index::{append, build, find_block, find_number, take_off, Arrays, Image, MARK};
use crate::punching::Record;
use crate::reading::{Block, Opening};
use crate::rows::{punched, LF, NUL};
use crate::specification::Specification;
use crate::Refusal;

/// The most places of a lent array, and the most entries of a list.
pub(super) const MOST_PLACES: usize = 100;

/// One line.
pub enum Indexed {
    /// IB: the index of a tape
    Build {
        /// what the tape is judged by
        specification: Specification,
        /// the arrays
        places: Places,
        /// the tape's rows
        tape: Vec<u8>,
    },
    /// IB: the same of an image, for which the index that was kept with it has to be built
    Kept {
        /// what the image is judged by
        specification: Specification,
        /// the arrays
        places: Places,
        /// the image
        tape: Vec<u8>,
        /// the first rows so far
        firsts: Vec<u64>,
        /// the numbers so far
        numbers: Vec<u64>,
    },
    /// IA: a record appended to an image
    Append {
        /// what both are judged by
        specification: Specification,
        /// the arrays; the rows behind the image have the same old content
        places: Places,
        /// how many rows the buffer has, if the image has no more
        room: usize,
        /// what is appended
        record: Box<Record>,
        /// the image
        tape: Vec<u8>,
    },
    /// IO: the last block taken off an image
    TakeOff {
        /// what the image is judged by
        specification: Specification,
        /// how many rows the buffer has, if the image has no more
        room: usize,
        /// the old content behind the image is counted from here
        first: u8,
        /// the image
        tape: Vec<u8>,
    },
    /// IL: a record appended to `%` LF, `()` and NUL
    Long {
        /// what both are judged by
        specification: Specification,
        /// the arrays
        places: Places,
        /// how many rows the buffer has, if the image has no more
        room: usize,
        /// how many rows the image has
        rows: usize,
        /// what is appended
        record: Box<Record>,
    },
    /// IW: block n as a record, through an index
    Block(Through),
    /// IP: the rows of block n, through an index
    Rows(Through),
    /// IN: the first block with a number
    Number {
        /// which, or the mark
        number: u64,
        /// the numbers of all blocks
        numbers: Vec<u64>,
    },
}

/// Two lent arrays.
#[derive(Clone, Copy)]
pub struct Places {
    /// how many places that of the first rows has
    pub firsts: usize,
    /// how many that of the numbers has
    pub numbers: usize,
    /// the first place's old content in both; each further one is one more, as of a buffer
    pub first: u8,
}

/// A block of a tape, through an index.
pub struct Through {
    /// what the tape is judged by
    pub specification: Specification,
    /// which block, from 0
    pub n: u64,
    /// the first rows of all blocks
    pub firsts: Vec<u64>,
    /// the tape's rows
    pub tape: Vec<u8>,
}

impl Places {
    fn text(&self) -> String {
        let Places { firsts, numbers, .. } = self;
        if firsts == numbers {
            return firsts.to_string();
        }
        format!("{firsts},{numbers}")
    }

    /// The arrays as they are lent.
    fn lent(&self) -> (Vec<u64>, Vec<u64>) {
        let array = |places: usize| lent(places, self.first).into_iter().map(u64::from).collect();
        (array(self.firsts), array(self.numbers))
    }

    /// How many entries there is room for.
    pub(super) fn least(&self) -> usize {
        self.firsts.min(self.numbers)
    }
}

/// A list as it is asked and answered: `-` is the mark, and `.` a list without entries.
pub(super) fn list_text(list: &[u64]) -> String {
    if list.is_empty() {
        return ".".into();
    }
    list.iter().map(|&entry| number_text(entry)).collect::<Vec<_>>().join(",")
}

pub(super) fn number_text(number: u64) -> String {
    match number {
        MARK => "-".into(),
        _ => number.to_string(),
    }
}

/// First rows, or other numbers of which none is a mark.
pub(super) fn firsts_text(firsts: &[u64]) -> String {
    if firsts.is_empty() {
        return ".".into();
    }
    firsts.iter().map(|first| first.to_string()).collect::<Vec<_>>().join(",")
}

/// A buffer of at least `room` rows with an image in its first rows.
fn buffer_with(tape: &[u8], room: usize, first: u8) -> Vec<u8> {
    let mut buffer = lent(room.max(tape.len()), first);
    buffer[..tape.len()].copy_from_slice(tape);
    buffer
}

/// The image of IL.
fn long_image(rows: usize) -> Vec<u8> {
    let mut image: Vec<u8> = [b'%', LF, b'(', b')'].map(punched).to_vec();
    image.resize(rows, NUL);
    image
}

/// An append as it was done: the answer, and buffer and arrays after it.
pub(super) struct Appended {
    pub answer: Result<Image, Refusal>,
    pub buffer: Vec<u8>,
    pub firsts: Vec<u64>,
    pub numbers: Vec<u64>,
}

pub(super) fn appended(specification: &Specification, places: &Places, room: usize, record: &Record, tape: &[u8]) -> Appended {
    let mut buffer = buffer_with(tape, room, places.first);
    let (mut firsts, mut numbers) = places.lent();
    let mut index = Arrays { firsts: &mut firsts, numbers: &mut numbers };
    let answer = specification.format().and_then(|format| append(&format, &mut buffer, tape.len(), &mut index, record));
    Appended { answer, buffer, firsts, numbers }
}

/// The reply with rows and blocks of an image, and behind them the other parts that are not empty.
fn image_reply(answer: Result<Image, Refusal>, others: &[String]) -> Reply {
    handed_back(answer, Image { rows: 0, blocks: 0 }, |Image { rows, blocks }| parts_text(format!("{rows} {blocks}"), others))
}

impl Indexed {
    /// The line as it is asked.
    pub(super) fn text(&self) -> Vec<u8> {
        match self {
            Indexed::Build { specification, places, tape } | Indexed::Kept { specification, places, tape, .. } => {
                judged("IB", specification, &format!("{} {} {}", places.text(), places.first, asked(tape)))
            }
            Indexed::Append { specification, places, room, record, tape } => {
                let lent = format!("{} {room} {}", places.text(), places.first);
                judged("IA", specification, &format!("{lent} {} | {}", record_text(record), asked(tape)))
            }
            Indexed::TakeOff { specification, room, first, tape } => {
                judged("IO", specification, &format!("{room} {first} {}", asked(tape)))
            }
            Indexed::Long { specification, places, room, rows, record } => {
                judged("IL", specification, &format!("{} {room} {rows} {}", places.text(), record_text(record)))
            }
            Indexed::Block(through) => through.text("IW"),
            Indexed::Rows(through) => through.text("IP"),
            Indexed::Number { number, numbers } => format!("IN {} {}", number_text(*number), list_text(numbers)).into_bytes(),
        }
    }

    /// The reader's answer.
    pub(super) fn answer(&self) -> Reply {
        match self {
            Indexed::Build { specification, places, tape } => {
                let (mut firsts, mut numbers) = places.lent();
                let mut index = Arrays { firsts: &mut firsts, numbers: &mut numbers };
                let count = specification.format().and_then(|format| build(&format, tape, &mut index));
                handed_back(count, 0, |count| format!("{count} {} {}", firsts_text(&firsts), list_text(&numbers)))
            }
            Indexed::Kept { places, firsts, numbers, .. } => {
                let (mut all_firsts, mut all_numbers) = places.lent();
                all_firsts[..firsts.len()].copy_from_slice(firsts);
                all_numbers[..numbers.len()].copy_from_slice(numbers);
                Reply::new(0, 0, &format!("{} {} {}", firsts.len(), firsts_text(&all_firsts), list_text(&all_numbers)))
            }
            Indexed::Append { specification, places, room, record, tape } => {
                let Appended { answer, buffer, firsts, numbers } = appended(specification, places, *room, record, tape);
                image_reply(answer, &[rows_text(&buffer), firsts_text(&firsts), list_text(&numbers)])
            }
            Indexed::TakeOff { specification, room, first, tape } => {
                let mut buffer = buffer_with(tape, *room, *first);
                let answer = specification.format().and_then(|format| take_off(&format, &mut buffer, tape.len()));
                image_reply(answer, &[rows_text(&buffer)])
            }
            Indexed::Long { specification, places, room, rows, record } => {
                image_reply(appended(specification, places, *room, record, &long_image(*rows)).answer, &[])
            }
            Indexed::Block(through) => block_reply(through.found().map(|(block, _)| block)),
            Indexed::Rows(through) => handed_back(through.found().map(|(_, rows)| rows), &[], rows_text),
            Indexed::Number { number, numbers } => handed_back(find_number(numbers, *number), 0, |block| block.to_string()),
        }
    }
}

impl Through {
    fn text(&self, letters: &str) -> Vec<u8> {
        let Through { specification, n, firsts, tape } = self;
        judged(letters, specification, &format!("{n} {} {}", firsts_text(firsts), asked(tape)))
    }

    pub(super) fn found(&self) -> Result<(Block, &[u8]), Refusal> {
        let format = self.specification.format()?;
        find_block(&format, &self.tape, &self.firsts, self.n).map(|(block, rows)| (block, &self.tape[rows]))
    }
}

/// Parts that are missing or empty, lists at their edges, and the bar behind a record.
pub(super) fn edges() -> Vec<Line> {
    let line = |indexed| Line::Indexed(Box::new(indexed));
    let numbered = |number, numbers: &[u64]| line(Indexed::Number { number, numbers: numbers.to_vec() });
    let under = || Specification::new(2539, "N3X42*", "");
    let places = |firsts, numbers| Places { firsts, numbers, first: 7 };
    let built = |firsts, numbers, tape: &[u8]| {
        line(Indexed::Build { specification: under(), places: places(firsts, numbers), tape: tape.to_vec() })
    };
    let head = [b'%', LF].map(punched);
    let appended = |tape: &[u8]| {
        let record = Box::new(Record::from(&Block { opening: Opening::numbered(2), words: Vec::new() }));
        line(Indexed::Append { specification: under(), places: places(1, 1), room: 7, record, tape: tape.to_vec() })
    };
    let through = |firsts: &[u64], tape: &[u8]| {
        line(Indexed::Block(Through { specification: under(), n: 0, firsts: firsts.to_vec(), tape: tape.to_vec() }))
    };
    vec![
        spelt("IN 7", numbered(7, &[])),
        spelt("IN 7 .", numbered(7, &[])),
        spelt("IN 7 .7", numbered(7, &[])),
        spelt("IN 7 7,", numbered(7, &[7, 0])),
        spelt("IN 0 7,", numbered(0, &[7, 0])),
        spelt("IN 0 ,7", numbered(0, &[0, 7])),
        spelt("IN - -", numbered(MARK, &[MARK])),
        spelt("IN -7 7", numbered(MARK, &[7])),
        spelt("IN 7 -7,7", numbered(7, &[MARK, 7])),
        spelt("IN 18446744073709551615 18446744073709551615", numbered(MARK, &[MARK])),
        spelt("IN 7 1 7", numbered(7, &[1])),
        spelt("IB 2539 N3X42*", built(0, 0, &[])),
        spelt("IB 2539 N3X42* 2,1 7 %~", built(2, 1, &head)),
        spelt("IB 2539 N3X42* 2, 7 %~", built(2, 0, &head)),
        spelt("IB 2539 N3X42* ,2 7 %~", built(0, 2, &head)),
        spelt("IB 2539 N3X42* 2,2,9 7 %~", built(2, 2, &head)),
        spelt("IB 2539 N3X42* 101 7 %~", built(100, 100, &head)),
        spelt("IB 2539 N3X42* 3,18446744073709551615 7 %~", built(3, 100, &head)),
        spelt("IB 2539 N3X42* 1 263 %~", built(1, 1, &head)),
        spelt("IA 2539 N3X42* 1 7 7 - N 2 0 | %~", appended(&head)),
        spelt("IA 2539 N3X42* 1 7 7 - N 2 0| %~", appended(&head)),
        spelt("IA 2539 N3X42* 1 7 7 - N 2 0 |", appended(&[])),
        spelt("IA 2539 N3X42* 1 7 7 - N 2 0 |%~", appended(&[])),
        spelt("IA 2539 N3X42* 1 7 7 - N 2 0", appended(&[])),
        spelt("IA 2539 N3X42* 1 7 7 - N 2 0 |%~| %~", appended(&head)),
        spelt("IW 2539 N3X42* 0", through(&[], &[])),
        spelt("IW 2539 N3X42* 0 . %~", through(&[], &head)),
        spelt("IW 2539 N3X42* 0  %~", through(&[], &head)),
        spelt("IW 2539 N3X42* 0 2, %~", through(&[2, 0], &head)),
        spelt("IW 2539 N3X42* 0 -,1 %~", through(&[0, 1], &head)),
    ]
}

#[cfg(test)]
mod tests {
    use super::*;

    /// What is written behind the arrow.
    fn written(indexed: Indexed) -> String {
        let text = String::from_utf8(indexed.text()).unwrap();
        format!("{text}{}", indexed.answer())
    }

    fn rows(text: &str) -> Vec<u8> {
        text.bytes().map(punched).collect()
    }

    fn under() -> Specification {
        Specification::new(2539, "N3X42*", "")
    }

    #[test]
    fn lines_of_the_index() {
        let tape = rows("%\nN001\n\0(R)N002\nX000001\n");
        let build = |firsts, numbers| {
            written(Indexed::Build { specification: under(), places: Places { firsts, numbers, first: 254 }, tape: tape.clone() })
        };
        let spelt = "%~N001~_(R)N002~X000001~";
        assert_eq!(build(4, 4), format!("IB 2539 N3X42* 4 254 {spelt} -> 0 0 3 2,7,16,1 1,2,-,1"));
        assert_eq!(build(3, 2), format!("IB 2539 N3X42* 3,2 254 {spelt} -> 24 3 0 254,255,0 254,255"));
        assert_eq!(build(0, 0), format!("IB 2539 N3X42* 0 254 {spelt} -> 24 3 0 . ."));
        let through = |n| Through { specification: under(), n, firsts: vec![2, 7, 16], tape: tape.clone() };
        assert_eq!(written(Indexed::Block(through(2))), format!("IW 2539 N3X42* 2 2,7,16 {spelt} -> 0 0 - N - 1 XD1"));
        assert_eq!(written(Indexed::Rows(through(1))), format!("IP 2539 N3X42* 1 2,7,16 {spelt} -> 0 0 _(R)N002~"));
        assert_eq!(written(Indexed::Rows(through(3))), format!("IP 2539 N3X42* 3 2,7,16 {spelt} -> 15 3"));
        let number = |number| written(Indexed::Number { number, numbers: vec![MARK, 0, 7, 7] });
        assert_eq!(number(7), "IN 7 -,0,7,7 -> 0 0 2");
        assert_eq!(number(MARK), "IN - -,0,7,7 -> 25 0 0");
        assert_eq!(written(Indexed::Number { number: 1, numbers: vec![] }), "IN 1 . -> 25 0 0");
    }

    #[test]
    fn lines_of_images() {
        let record = || Box::new(Record::from(&Block { opening: Opening::numbered(2), words: Vec::new() }));
        let places = Places { firsts: 1, numbers: 1, first: 65 };
        let append =
            |room, text| written(Indexed::Append { specification: under(), places, room, record: record(), tape: rows(text) });
        assert_eq!(append(9, "%\n"), "IA 2539 N3X42* 1 9 65 - N 2 0 | %~ -> 0 0 7 1 %~N002~H?I 2 2");
        assert_eq!(append(6, "%\n"), "IA 2539 N3X42* 1 6 65 - N 2 0 | %~ -> 19 7 0 0 %~?CD?E?F 65 65");
        assert_eq!(append(0, ""), "IA 2539 N3X42* 1 0 65 - N 2 0 |  -> 8 0 0 0 65 65");
        let taken = |room, text| written(Indexed::TakeOff { specification: under(), room, first: 65, tape: rows(text) });
        assert_eq!(taken(9, "%\nN001\n"), "IO 2539 N3X42* 9 65 %~N001~ -> 0 0 7 0 %~`````H?I");
        assert_eq!(taken(0, "%\n"), "IO 2539 N3X42* 0 65 %~ -> 15 0 0 0 %~");
        let long = |rows, room| written(Indexed::Long { specification: under(), places, room, rows, record: record() });
        assert_eq!(long(999_995, 1_000_000), "IL 2539 N3X42* 1 1000000 999995 - N 2 0 -> 0 0 1000000 1");
        assert_eq!(long(999_996, 1_000_001), "IL 2539 N3X42* 1 1000001 999996 - N 2 0 -> 4 1000000 0 0");
    }
}
