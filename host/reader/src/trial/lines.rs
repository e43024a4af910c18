//! Asking the library by lines of text, as crates/vectors/LINES.md has them, and what the reader answers.

use super::chance::Chance;
use super::corrected::{self, Corrected};
use super::indexed::{self, Indexed};
use super::inputs::{self, bad_text, either_edition, lent, strange_edition, Ask, Input};
use super::misplaced::{self, Slipped};
use super::profiles;
use super::programs;
use super::records::{self, Handed};
use super::saved::{self, Saved};
use super::splicing::{Spliced, Verdict};
use crate::corrections::Tape;
use crate::punching::{punch_head, Record, Word, CLEARED};
use crate::reading::{block_rows, read_block, Block, Opening, Value};
use crate::rows::{punched, CR, DEL, HT, LF, NUL};
use crate::shorthand::{parse, Dropped, Format, Item, Kind, Layout, Mark};
use crate::specification::Specification;
use crate::speeds::{code_of, exact_code, speed_of, Speed};
use crate::{count_blocks, measure_block, punch_block, Refusal};
use std::fmt;

/// A longer line is not asked.
const MOST_BYTES: usize = 60_000;

/// One line.
pub enum Line {
    /// B: how many blocks
    Count {
        /// what the tape is judged by
        specification: Specification,
        /// its rows
        tape: Vec<u8>,
    },
    /// S: a code's speed
    Speed {
        /// how many digits it has
        digits: u32,
        /// the code
        code: u64,
    },
    /// C: a speed's code
    Code {
        /// how many digits it has
        digits: u32,
        /// the speed
        speed: Speed,
    },
    /// X: a speed's exact code
    ExactCode {
        /// how many digits it has
        digits: u32,
        /// the speed
        speed: Speed,
    },
    /// H: the head into a buffer
    Head {
        /// how many rows it has
        room: usize,
        /// its first row before the call
        first: u8,
    },
    /// F: a shorthand's Format
    Format {
        /// its edition
        edition: u32,
        /// its text
        shorthand: Vec<u8>,
    },
    /// G: the Format under a profile
    Agreed(Specification),
    /// W: block n as a record
    Block(Nth),
    /// P: the rows of block n
    Rows(Nth),
    /// J: a record punched
    Punch(Box<Handed>),
    /// U: the rows that a record needs
    Measure(Box<Handed>),
    /// V: a record's rows written
    Write(Box<Handed>),
    /// a line of two letters: the index of a tape's blocks, and the image that it is kept with
    Indexed(Box<Indexed>),
    /// the same: a correction tape beside its master
    Corrected(Box<Corrected>),
    /// SV: a damaged tape saved
    Saved(Box<Saved>),
    /// B or W of a glued or dressed tape
    Spliced(Box<Spliced>),
    /// a line that is spelt as it would not be by itself
    Spelt(&'static str, Box<Line>),
    /// a line that asks nothing
    Remark(Vec<u8>),
}

/// A block of a tape.
pub struct Nth {
    /// what the tape is judged by
    pub specification: Specification,
    /// which block, from 0
    pub n: u64,
    /// the tape's rows
    pub tape: Vec<u8>,
}

/// A line, with number and place of its answer where they are known from the making.
pub struct Posed {
    /// the line
    pub line: Line,
    /// what must begin the answer
    pub known: Option<(u64, u64)>,
}

/// What is answered to a line.
pub struct Reply {
    /// 0 or a refusal
    pub number: u64,
    /// 0 or the refusal's place
    pub place: u64,
    /// whether a record without number was punched or read
    pub unnumbered: bool,
    /// of two tapes, the one that is refused
    pub refused: Option<Tape>,
    /// of a tape that was saved, what each overpunched piece is refused with; none of one that was not
    pub losses: Option<Vec<u64>>,
    /// of a glued or dressed tape, how it was made and whether the answer is the one known from that
    pub spliced: Option<Verdict>,
    /// what is written behind the arrow: number and place, but for X, and what is handed back, on a refusal too
    written: String,
}

impl Reply {
    pub(super) fn new(number: u64, place: u64, handed: &str) -> Reply {
        let written = format!("{number} {place} {handed}");
        Reply { number, place, unnumbered: false, refused: None, losses: None, spliced: None, written }
    }

    /// The code where there is one. Where there is none, a record is refused with 18.
    fn exact(code: Option<u64>) -> Reply {
        let number = if code.is_some() { 0 } else { 18 };
        Reply { written: code.map_or(String::new(), |code| code.to_string()), ..Reply::new(number, 0, "") }
    }
}

impl fmt::Display for Reply {
    fn fmt(&self, to: &mut fmt::Formatter<'_>) -> fmt::Result {
        // where the last part is empty, its space is left out too
        to.write_str(format!(" -> {}", self.written).trim_end_matches(' '))
    }
}

impl Line {
    /// The line as it is asked.
    pub fn text(&self) -> Vec<u8> {
        match self {
            Line::Count { specification, tape } => judged("B", specification, &asked(tape)),
            Line::Speed { digits, code } => format!("S {digits} {code}").into_bytes(),
            Line::Code { digits, speed } => format!("C {digits} {speed}").into_bytes(),
            Line::ExactCode { digits, speed } => format!("X {digits} {speed}").into_bytes(),
            Line::Head { room, first } => format!("H {room} {first}").into_bytes(),
            Line::Format { edition, shorthand } => [format!("F {edition} ").as_bytes(), shorthand].concat(),
            Line::Agreed(Specification { edition, shorthand, profile }) => {
                [format!("G {edition} ").as_bytes(), shorthand, b"|", profile, b"|"].concat()
            }
            Line::Block(nth) => nth.text("W"),
            Line::Rows(nth) => nth.text("P"),
            Line::Punch(handed) => handed.text("J"),
            Line::Measure(handed) => judged("U", &handed.specification, &record_text(&handed.record)),
            Line::Write(handed) => handed.text("V"),
            Line::Indexed(indexed) => indexed.text(),
            Line::Corrected(corrected) => corrected.text(),
            Line::Saved(saved) => saved.text(),
            Line::Spliced(spliced) => spliced.line.text(),
            Line::Spelt(text, _) => text.as_bytes().to_vec(),
            Line::Remark(text) => text.clone(),
        }
    }

    /// The reader's answer.
    pub(super) fn answer(&self) -> Option<Reply> {
        Some(match self {
            Line::Count { specification, tape } => handed_back(count_blocks(specification, tape), 0, |count| count.to_string()),
            // a refusal hands back a rate of zero
            Line::Speed { digits, code } => handed_back(speed_of(*digits, *code), Speed::Rate(0), |speed| speed.to_string()),
            Line::Code { digits, speed } => handed_back(code_of(*digits, *speed), 0, |code| code.to_string()),
            Line::ExactCode { digits, speed } => Reply::exact(exact_code(*digits, *speed)),
            Line::Head { room, first } => {
                let mut buffer = lent(*room, *first);
                handed_back(punch_head(&mut buffer), 0, |count| buffer_text(count, &buffer))
            }
            Line::Format { edition, shorthand } => formed(*edition, parse(*edition, shorthand)),
            Line::Agreed(specification) => formed(specification.edition, specification.format()),
            Line::Block(Nth { specification, n, tape }) => {
                let block = specification.format().and_then(|format| read_block(&format, tape, *n));
                let unnumbered = block.as_ref().is_ok_and(|block| !block.opening.numbered);
                Reply { unnumbered, ..block_reply(block) }
            }
            Line::Rows(Nth { specification, n, tape }) => {
                let rows = specification.format().and_then(|format| block_rows(&format, tape, *n));
                handed_back(rows, &[], rows_text)
            }
            // the rules have one answer for a block that is punched and one that is written
            Line::Punch(handed) | Line::Write(handed) => {
                let Handed { specification, room, first, record } = &**handed;
                let mut buffer = lent(*room, *first);
                let count = punch_block(specification, record, &mut buffer);
                let unnumbered = !record.opening.numbered;
                Reply { unnumbered, ..handed_back(count, 0, |count| buffer_text(count, &buffer)) }
            }
            Line::Measure(handed) => {
                let unnumbered = !handed.record.opening.numbered;
                let count = measure_block(&handed.specification, &handed.record);
                Reply { unnumbered, ..handed_back(count, 0, |count| count.to_string()) }
            }
            Line::Indexed(indexed) => indexed.answer(),
            Line::Corrected(corrected) => corrected.answer(),
            Line::Saved(saved) => saved.answer(),
            Line::Spliced(spliced) => return spliced.answer(),
            Line::Spelt(_, line) => return line.answer(),
            Line::Remark(_) => return None,
        })
    }
}

impl Nth {
    fn text(&self, letter: &str) -> Vec<u8> {
        judged(letter, &self.specification, &format!("{} {}", self.n, asked(&self.tape)))
    }
}

impl Handed {
    fn text(&self, letter: &str) -> Vec<u8> {
        let Handed { specification, room, first, record } = self;
        judged(letter, specification, &format!("{room} {first} {}", record_text(record)))
    }
}

impl Posed {
    pub(super) fn of(line: Line) -> Posed {
        Posed { line, known: None }
    }

    /// The reader's answer; none where nothing is asked. `text` is the line's.
    pub fn reply(&self, text: &[u8]) -> Option<Reply> {
        self.line.answer().filter(|_| text.len() <= MOST_BYTES)
    }
}

/// What the program has to write for a line.
pub fn answered(text: &[u8], reply: Option<&Reply>) -> Vec<u8> {
    let mut line = text.to_vec();
    if let Some(reply) = reply {
        line.extend(reply.to_string().bytes());
    }
    line
}

/// The letters that a line begins with.
pub fn letters(text: &[u8]) -> String {
    text.iter().take_while(|byte| byte.is_ascii_uppercase()).map(|&byte| char::from(byte)).collect()
}

/// The reply with a block as a record. A refusal hands back one with neither number nor word.
pub(super) fn block_reply(block: Result<Block, Refusal>) -> Reply {
    let none = Block { opening: Opening::BARE, words: Vec::new() };
    handed_back(block, none, |block| record_text(&Record::from(&block)))
}

/// The reply of `result`, with `none` handed back where it is refused.
pub(super) fn handed_back<T>(result: Result<T, Refusal>, none: T, text: impl Fn(T) -> String) -> Reply {
    match result {
        Ok(value) => Reply::new(0, 0, &text(value)),
        Err(refusal) => {
            let (number, place) = told(refusal);
            Reply::new(number, place, &text(none))
        }
    }
}

/// The reply with a Format by that edition, or the empty one.
fn formed(edition: u32, format: Result<Format, Refusal>) -> Reply {
    let none = Format { sequence: 0, unnumbered: false, layout: Layout::Addresses, items: Vec::new() };
    handed_back(format, none, |format| format_text(edition, &format))
}

/// A line on `rest`, judged by `specification`. A profile stands between bars; without one there are none.
pub(super) fn judged(letter: &str, specification: &Specification, rest: &str) -> Vec<u8> {
    let Specification { edition, shorthand, profile } = specification;
    let bar: &[u8] = if profile.is_empty() { b"" } else { b"|" };
    [format!("{letter} {edition} ").as_bytes(), shorthand, bar, profile, bar, b" ", rest.as_bytes()].concat()
}

/// A tape as it is asked: the row of SP may stand as it is.
pub(super) fn asked(tape: &[u8]) -> String {
    rows_text(tape).replace("\\160", " ")
}

pub(super) fn rows_text(rows: &[u8]) -> String {
    let mut text = String::with_capacity(2 * rows.len());
    for &row in rows {
        let Some(character) = character_text(row & 0x7F) else {
            text += &format!("\\{row:03}");
            continue;
        };
        if row != punched(row & 0x7F) {
            text.push('?');
        }
        text.push(character);
    }
    text
}

/// How the notation has a character, if it does.
fn character_text(character: u8) -> Option<char> {
    match character {
        LF => Some('~'),
        HT => Some('^'),
        NUL => Some('_'),
        DEL => Some('`'),
        CR => Some('&'),
        b'~' | b'^' | b'_' | b'`' | b'&' | b'?' | b'\\' => None,
        b'!'..=b'~' => Some(character as char),
        _ => None,
    }
}

/// A text, and behind it the other parts that are not empty.
pub(super) fn parts_text(mut text: String, others: &[String]) -> String {
    others.iter().filter(|part| !part.is_empty()).for_each(|part| text += &format!(" {part}"));
    text
}

/// The number of rows written, and the whole buffer.
fn buffer_text(count: u64, buffer: &[u8]) -> String {
    format!("{count} {}", rows_text(buffer))
}

/// A record, with the places behind its count up to the last one that is not cleared.
pub(super) fn record_text(record: &Record) -> String {
    let skip = if record.opening.skip { '/' } else { '-' };
    let letter = if record.opening.alignment { ':' } else { 'N' };
    let mut text = format!("{skip} {letter} {} {}", number_text(record.opening), record.count);
    let last = record.places.iter().rposition(|&place| place != CLEARED).map_or(0, |last| last + 1);
    let counted = usize::try_from(record.count).unwrap_or(usize::MAX).min(record.places.len());
    for &word in &record.places[..last.max(counted)] {
        text += &format!(" {}", word_text(word));
    }
    text
}

/// The number or, where there is none, `-` and what its field holds but for 0.
fn number_text(Opening { numbered, sequence, .. }: Opening) -> String {
    match (numbered, sequence) {
        (true, _) => sequence.to_string(),
        (false, 0) => "-".into(),
        (false, _) => format!("-{sequence}"),
    }
}

fn word_text((letter, value): Word) -> String {
    let letter = if letter.is_ascii_uppercase() { char::from(letter).to_string() } else { format!("#{letter}") };
    let kind = match value {
        Value::Plain(_) => 'N',
        Value::Speed(_) => 'S',
        Value::Dimension(_) => 'D',
    };
    format!("{letter}{kind}{value}")
}

fn format_text(edition: u32, format: &Format) -> String {
    let layout = match format.layout {
        Layout::Addresses => "plain",
        Layout::Both => "dots",
        Layout::Tabs => "tabs",
    };
    let unnumbered = if format.unnumbered { "-" } else { "" };
    let mut text = format!("{}{unnumbered} {layout} {}", format.sequence, format.items.len());
    for item in &format.items {
        text += &format!(" {}", item_text(edition, item));
    }
    text
}

fn item_text(edition: u32, item: &Item) -> String {
    let letter = char::from(item.letter);
    match item.kind {
        Kind::Plain => format!("{letter}P{}", item.most),
        Kind::Speed => format!("{letter}S{}", item.most),
        Kind::Dimension { mark, before, dropped } => {
            let mark = match mark {
                Mark::Bare => '.',
                Mark::Absolute => '+',
                Mark::Incremental => 'D',
            };
            let missing = match dropped {
                Dropped::None => '=',
                Dropped::Leading => 'L',
                Dropped::Trailing => 'T',
            };
            // the edition's rule, whatever the mark
            let sign = if edition == 2539 { 'b' } else { 's' };
            format!("{letter}D{mark}{before}.{}{missing}{sign}", item.most - before)
        }
    }
}

/// `size` records to punch.
pub fn punchings(seed: u64, size: usize) -> Vec<Posed> {
    records::records(seed, size).into_iter().map(punching).collect()
}

fn punching((mut handed, known): (Handed, records::Known)) -> Posed {
    make_sayable(&mut handed.specification);
    let known = known.map(|known| known.map_or_else(told, |_| (0, 0)));
    Posed { line: Line::Punch(Box::new(handed)), known }
}

/// `size` records, each measured and then written. A buffer that is too small is nothing to the measure.
pub fn measurings(seed: u64, size: usize) -> Vec<Posed> {
    punchings(seed, size).into_iter().flat_map(|Posed { line, known }| measuring(line, known)).collect()
}

fn measuring(line: Line, known: Option<(u64, u64)>) -> [Posed; 2] {
    let Line::Punch(handed) = line else { unreachable!("records are punched") };
    let measured = known.map(|known| if known.0 == 19 { (0, 0) } else { known });
    [Posed { line: Line::Measure(handed.clone()), known: measured }, Posed { line: Line::Write(handed), known }]
}

/// Number and place, as an answer begins with them.
pub(super) fn told(refusal: Refusal) -> (u64, u64) {
    (u64::from(refusal.number), refusal.place)
}

/// Takes away what would end a damaged shorthand, a damaged profile or their line.
pub(super) fn make_sayable(specification: &mut Specification) {
    specification.shorthand.retain(|byte| !matches!(byte, b' ' | b'|' | b'\n'));
    specification.profile.retain(|byte| !matches!(byte, b'|' | b'\n'));
}

/// About `size` tapes: how many blocks, one of them, or its rows. Of a sound tape, all three.
pub fn tapes(seed: u64, size: usize) -> Vec<Posed> {
    let chance = &mut Chance::new(seed);
    inputs::tapes(seed, size).into_iter().flat_map(|input| tape(chance, input)).collect()
}

fn tape(chance: &mut Chance, input: Input) -> Vec<Posed> {
    let Ask::Count { mut specification, tape } = input.ask else { return Vec::new() };
    make_sayable(&mut specification);
    let mut nth = || Nth { specification: specification.clone(), n: some_block(chance), tape: tape.clone() };
    let mut lines = vec![Line::Block(nth()), Line::Rows(nth()), Line::Count { specification, tape }];
    let sound = input.known.as_ref().is_some_and(|known| known.number == 0);
    if !sound {
        lines = vec![lines.swap_remove(chance.below(3))];
    }
    // a refusal of the tape comes before that of a block that isn't there
    let known = input.known.filter(|_| !sound).map(|known| (known.number, known.place));
    lines.into_iter().map(|line| Posed { line, known }).collect()
}

/// A block that a tape may have, or none does.
fn some_block(chance: &mut Chance) -> u64 {
    match chance.below(32) {
        0 => u64::MAX,
        1 => 1 << 32,
        2 => chance.number(),
        3..=6 => chance.below(60) as u64,
        _ => chance.below(5) as u64,
    }
}

/// `size` shorthands: sound, damaged, cut, and by other editions.
pub fn formats(seed: u64, size: usize) -> Vec<Posed> {
    let chance = &mut Chance::new(seed);
    (0..size).map(|_| if chance.happens(1, 8) { slipped_format(chance) } else { Posed::of(format(chance)) }).collect()
}

/// A feed where none may stand, or the like.
fn slipped_format(chance: &mut Chance) -> Posed {
    let Slipped { specification: Specification { edition, shorthand, .. }, refusal, .. } = misplaced::slipped(chance);
    Posed { line: Line::Format { edition, shorthand }, known: Some(told(refusal)) }
}

fn format(chance: &mut Chance) -> Line {
    let Specification { mut edition, mut shorthand, .. } = programs::plan(chance).specification;
    match chance.below(8) {
        0 => edition = strange_edition(chance),
        1 => edition = either_edition(chance),
        2 | 3 => shorthand = bad_text(chance, shorthand),
        4 => shorthand.truncate(chance.below(shorthand.len())),
        _ => {}
    }
    // it is the last part of its line, and may hold spaces
    shorthand.retain(|&byte| byte != b'\n');
    Line::Format { edition, shorthand }
}

/// `size` specifications: sound, with a faulty or damaged profile, and such that no profile is looked at.
pub fn agreements(seed: u64, size: usize) -> Vec<Posed> {
    let chance = &mut Chance::new(seed);
    (0..size).map(|_| agreement(chance)).collect()
}

fn agreement(chance: &mut Chance) -> Posed {
    let plan = programs::plan(chance);
    let mut specification = plan.specification.clone();
    let mut known = None;
    match chance.below(16) {
        0 => specification.edition = strange_edition(chance),
        1 => specification.edition = either_edition(chance),
        2 | 3 => specification.shorthand = bad_text(chance, specification.shorthand),
        4 => {
            let slipped = misplaced::slipped(chance);
            (specification, known) = (slipped.specification, Some(slipped.refusal));
        }
        5..=7 => {
            let (profile, refusal) = profiles::faulty(chance, &plan);
            (specification.profile, known) = (profile, Some(refusal));
        }
        8 => specification.profile = profiles::damaged(chance, &plan),
        9 => specification.profile = profiles::any(chance, &plan),
        _ => {}
    }
    make_sayable(&mut specification);
    Posed { line: Line::Agreed(specification), known: known.map(told) }
}

/// Codes, speeds and heads: all edges, and `size` random ones.
pub fn numbers(seed: u64, size: usize) -> Vec<Posed> {
    inputs::numbers(seed, size).into_iter().flat_map(number).collect()
}

/// A speed's code is asked for twice: for the one that it is rounded to, and for the exact one.
fn number(Input { ask, known }: Input) -> Vec<Posed> {
    let known = known.map(|known| (known.number, known.place));
    let posed = |line| Posed { line, known };
    match ask {
        Ask::Count { specification, tape } => vec![posed(Line::Count { specification, tape })],
        Ask::Speed { digits, code } => vec![posed(Line::Speed { digits, code })],
        Ask::Head { length, first } => vec![posed(Line::Head { room: length, first })],
        Ask::Code { digits, kind, units } => match inputs::handed_speed(kind, units) {
            Some(speed) => vec![posed(Line::Code { digits, speed }), Posed::of(Line::ExactCode { digits, speed })],
            // what is no speed can't be said in a line
            None => Vec::new(),
        },
    }
}

/// Lines that ask nothing, bars, speeds, missing numbers, indexes, pairs of tapes and tapes to save at their edges, and tapes whose lines are as long as may be, or one byte longer.
pub fn edges() -> Vec<Posed> {
    let remarks =
        ["", "#", "# a remark", " B 1057 N3* %~", "b 1057 N3* %~", "BBB 1057 N3* %~", "Bb 1057 N3* %~", "bB 1057 N3* %~"];
    let short = ["B1057 N3* %~", "1 2", "~", "IN", "IN\t1 1", "I", "CI", "CP", "Ce 1", "SV", "S"];
    let mut lines: Vec<Line> = remarks.iter().chain(&short).map(|text| Line::Remark(text.as_bytes().to_vec())).collect();
    for bytes in [MOST_BYTES - 1, MOST_BYTES, MOST_BYTES + 1, 2 * MOST_BYTES, 5 * MOST_BYTES] {
        let mut tape = vec![punched(b'%'), punched(LF)];
        tape.resize(bytes - "B 1057 N3* ".len(), NUL);
        lines.push(Line::Count { specification: Specification::new(1057, "N3*", ""), tape });
    }
    lines.extend(bars());
    lines.extend(spelt_speeds());
    lines.extend(spelt_numbers());
    lines.extend(indexed::edges());
    lines.extend(corrected::edges());
    lines.extend(saved::edges());
    lines.into_iter().map(Posed::of).collect()
}

/// No profile between two bars, or without any, and a profile that the line's end ends.
fn bars() -> Vec<Line> {
    let under = |profile| Specification::new(2539, "N3.X42*", profile);
    let count = |profile, tape| Line::Count { specification: under(profile), tape };
    vec![
        spelt("G 2539 N3.X42*", Line::Agreed(under(""))),
        spelt("G 2539 N3.X42*|", Line::Agreed(under(""))),
        spelt("G 2539 N3.X42*|LTM 111 A", Line::Agreed(under("LTM 111 A"))),
        spelt("B 2539 N3.X42*|| %~", count("", vec![punched(b'%'), punched(LF)])),
        spelt("B 2539 N3.X42*|LTM 111 A", count("LTM 111 A", Vec::new())),
        spelt("B 2539 N3.X42*|LTM 111 A|", count("LTM 111 A", Vec::new())),
    ]
}

pub(super) fn spelt(text: &'static str, line: Line) -> Line {
    Line::Spelt(text, Box::new(line))
}

/// The first letter says stop or rapid, and all else is a number.
fn spelt_speeds() -> Vec<Line> {
    let code = |speed| Line::Code { digits: 2, speed };
    let exact = |speed| Line::ExactCode { digits: 2, speed };
    let punched = |speed| {
        let record = Record::from(&Block { opening: Opening::numbered(1), words: vec![(b'F', Value::Speed(speed))] });
        Line::Punch(Box::new(Handed { specification: Specification::new(2539, "N3F2*", ""), room: 8, first: 0, record }))
    };
    vec![
        spelt("C 2 s", code(Speed::Stop)),
        spelt("C 2 r9", code(Speed::Rapid)),
        spelt("C 2 Stop", code(Speed::Rate(0))),
        spelt("C 2", code(Speed::Rate(0))),
        spelt("X 2 stopped", exact(Speed::Stop)),
        spelt("X 2 rest", exact(Speed::Rapid)),
        spelt("X 2 11200000s", exact(Speed::Rate(11_200_000))),
        spelt("J 2539 N3F2* 8 0 - N 1 1 FSs", punched(Speed::Stop)),
        spelt("J 2539 N3F2* 8 0 - N 1 1 FSr99", punched(Speed::Rapid)),
        spelt("J 2539 N3F2* 8 0 - N 1 1 FS11200000r", punched(Speed::Rate(11_200_000))),
        spelt("J 2539 N3F2* 8 0 - N 1 1 FS", punched(Speed::Rate(0))),
    ]
}

/// A `-` says that there is no number, whatever digits follow it.
fn spelt_numbers() -> Vec<Line> {
    let punched = |opening, words: &[Word]| {
        let record = Record::from(&Block { opening, words: words.to_vec() });
        Line::Punch(Box::new(Handed { specification: Specification::new(2539, "N3T1*", ""), room: 7, first: 0, record }))
    };
    let t = [(b'T', Value::Plain(5))];
    let skipped = Opening { skip: true, ..Opening::BARE };
    let alignment = Opening { alignment: true, ..Opening::BARE };
    vec![
        spelt("J 2539 N3T1* 7 0 - N -0 1 TN5", punched(Opening::BARE, &t)),
        spelt("J 2539 N3T1* 7 0 / N -007 1 TN5", punched(Opening { sequence: 7, ..skipped }, &t)),
        spelt("J 2539 N3T1* 7 0 - N -99999 1 TN5", punched(Opening { sequence: 99_999, ..Opening::BARE }, &t)),
        spelt("J 2539 N3T1* 7 0 - : -1 1 TN5", punched(Opening { sequence: 1, ..alignment }, &t)),
        spelt("J 2539 N3T1* 7 0 - N - 0", punched(Opening::BARE, &[])),
        spelt("J 2539 N3T1* 7 0 - N -", punched(Opening::BARE, &[])),
        // a number that is not said is 0
        spelt("J 2539 N3T1* 7 0 - N", punched(Opening::numbered(0), &[])),
        spelt("J 2539 N3T1* 7 0 - N 000 1 TN5", punched(Opening::numbered(0), &t)),
    ]
}

#[cfg(test)]
mod tests {
    use super::*;

    const PLAIN: &str = "N3.G2.X+42.F3.M2*";
    const SAMPLE: &str = "%\nN001\tG01\tX+012500\tF615\n/N002\t\tX-000250\n";

    /// The whole line that has to be written for `line`.
    fn written(line: Line) -> String {
        let posed = Posed::of(line);
        let text = posed.line.text();
        String::from_utf8(answered(&text, posed.reply(&text).as_ref())).unwrap()
    }

    fn rows(text: &str) -> Vec<u8> {
        text.bytes().map(punched).collect()
    }

    fn nth(n: u64) -> Nth {
        Nth { specification: Specification::new(1057, PLAIN, ""), n, tape: rows(SAMPLE) }
    }

    fn format(edition: u32, shorthand: &str) -> String {
        written(Line::Format { edition, shorthand: shorthand.into() })
    }

    fn punching(room: usize, sequence: u64, words: &[Word]) -> Line {
        let opening = Opening { alignment: true, ..Opening::numbered(sequence) };
        let record = Record::from(&Block { opening, words: words.to_vec() });
        Line::Punch(Box::new(Handed { specification: Specification::new(1057, PLAIN, ""), room, first: 254, record }))
    }

    #[test]
    fn blocks_of_the_sample() {
        let spelt = "%~N001^G01^X+012500^F615~/N002^^X-000250~";
        let asked = |letter: char, n: &str| format!("{letter} 1057 {PLAIN}{n} {spelt} -> ");
        let count = Line::Count { specification: Specification::new(1057, PLAIN, ""), tape: rows(SAMPLE) };
        assert_eq!(written(count), asked('B', "") + "0 0 2");
        assert_eq!(written(Line::Block(nth(0))), asked('W', " 0") + "0 0 - N 1 3 GN1 XD12500 FS1500000000");
        assert_eq!(written(Line::Block(nth(1))), asked('W', " 1") + "0 0 / N 2 1 XD-250");
        assert_eq!(written(Line::Block(nth(2))), asked('W', " 2") + "15 2 - N - 0");
        assert_eq!(written(Line::Rows(nth(0))), asked('P', " 0") + "0 0 N001^G01^X+012500^F615~");
        assert_eq!(written(Line::Rows(nth(1))), asked('P', " 1") + "0 0 /N002^^X-000250~");
        assert_eq!(written(Line::Rows(nth(2))), asked('P', " 2") + "15 2");
    }

    #[test]
    fn formats_of_the_rules() {
        assert_eq!(format(1057, PLAIN), "F 1057 N3.G2.X+42.F3.M2* -> 0 0 3 dots 4 GP2 XD+4.2=s FS3 MP2");
        assert_eq!(format(2539, "N9X+042Y420ZD10*"), "F 2539 N9X+042Y420ZD10* -> 0 0 9- plain 3 XD+4.2Lb YD.4.2Tb ZDD1.0=b");
        assert_eq!(format(1057, "N3.X42.E3.D42.F4*"), "F 1057 N3.X42.E3.D42.F4* -> 0 0 3 dots 4 XD.4.2=s ES3 DD.4.2=s FS4");
        assert_eq!(format(2539, "N3X+42*"), "F 2539 N3X+42* -> 0 0 3- plain 1 XD+4.2=b");
        assert_eq!(format(2539, "N3*"), "F 2539 N3* -> 0 0 3- plain 0");
        assert_eq!(format(1057, "N3*"), "F 1057 N3* -> 0 0 3 plain 0");
        assert_eq!(format(2539, "N3X+040*"), "F 2539 N3X+040* -> 2 2 0 plain 0");
        assert_eq!(format(1057, "N3.X+042*"), "F 1057 N3.X+042* -> 3 2 0 plain 0");
        assert_eq!(format(1, ""), "F 1  -> 1 0 0 plain 0");
    }

    #[test]
    fn formats_under_profiles() {
        let agreed = |edition, shorthand, profile| written(Line::Agreed(Specification::new(edition, shorthand, profile)));
        let asked = |rest: &str| format!("G 2539 N3.G2.X+042*|{rest}");
        let under = |profile| agreed(2539, "N3.G2.X+042*", profile);
        assert_eq!(under("LTM110A"), asked("LTM110A| -> 0 0 3- tabs 2 GP2 XD+4.2Lb"));
        assert_eq!(under("LSM 110 A"), asked("LSM 110 A| -> 0 0 3- dots 2 GP2 XD+4.2Lb"));
        assert_eq!(under(""), asked("| -> 0 0 3- dots 2 GP2 XD+4.2Lb"));
        assert_eq!(under("LTM110"), asked("LTM110| -> 22 6 0 plain 0"));
        assert_eq!(under("LAM110A"), asked("LAM110A| -> 23 0 0 plain 0"));
        assert_eq!(agreed(2539, "N4*", "PTM000B"), "G 2539 N4*|PTM000B| -> 0 0 4- plain 0");
        assert_eq!(agreed(1057, "N4*", "?"), "G 1057 N4*|?| -> 3 0 0 plain 0");
    }

    #[test]
    fn tapes_and_records_under_profiles() {
        let specification = Specification::new(2539, "N3.G2.X+042*", "LTM110A");
        let tape = rows("%\nN001\t01\t5\n");
        let asked = "2539 N3.G2.X+042*|LTM110A|";
        let count = Line::Count { specification: specification.clone(), tape: tape.clone() };
        assert_eq!(written(count), format!("B {asked} %~N001^01^5~ -> 0 0 1"));
        let nth = Nth { specification: specification.clone(), n: 0, tape };
        assert_eq!(written(Line::Block(nth)), format!("W {asked} 0 %~N001^01^5~ -> 0 0 - N 1 2 GN1 XD5"));
        let record = Record::from(&Block { opening: Opening::numbered(2), words: vec![(b'X', Value::Dimension(0))] });
        let handed = Handed { specification, room: 14, first: 0, record };
        assert_eq!(written(Line::Punch(Box::new(handed))), format!("J {asked} 14 0 - N 2 1 XD0 -> 0 0 14 N002^^+000000~"));
    }

    #[test]
    fn measures_and_writings() {
        let handed = |room: usize| match punching(room, 7, &[(b'X', Value::Dimension(-250))]) {
            Line::Punch(handed) => handed,
            _ => unreachable!(),
        };
        let record = "- : 7 1 XD-250";
        let line = ":007^^X-000250~";
        assert_eq!(written(Line::Measure(handed(3))), format!("U 1057 {PLAIN} {record} -> 0 0 15"));
        assert_eq!(written(Line::Write(handed(15))), format!("V 1057 {PLAIN} 15 254 {record} -> 0 0 15 {line}"));
        assert_eq!(written(Line::Write(handed(0))), format!("V 1057 {PLAIN} 0 254 {record} -> 19 15 0"));
    }

    /// Where a record is measured, the rows are as many as are written, and as 19 asks for; where it is refused, both are.
    #[test]
    fn measured_as_written() {
        for Posed { line, .. } in punchings(6, 3_000) {
            let Line::Punch(handed) = line else { unreachable!() };
            let Handed { specification, room, first, record } = &*handed;
            let mut buffer = lent(*room, *first);
            let written = punch_block(specification, record, &mut buffer);
            match measure_block(specification, record) {
                Ok(rows) if rows <= *room as u64 => assert_eq!(written, Ok(rows)),
                Ok(rows) => assert_eq!(written, Err(Refusal::new(19, rows as usize))),
                refused => assert_eq!(written, refused),
            }
        }
    }

    #[test]
    fn punchings_and_buffers() {
        let (g, x) = ((b'G', Value::Plain(1)), (b'X', Value::Dimension(-250)));
        let asked = |room: usize, rest: &str| format!("J 1057 {PLAIN} {room} 254 - : {rest}");
        assert_eq!(written(punching(17, 1, &[x])), asked(17, "1 1 XD-250 -> 0 0 15 :001^^X-000250~?&\\014"));
        assert_eq!(written(punching(15, 1, &[x])), asked(15, "1 1 XD-250 -> 0 0 15 :001^^X-000250~"));
        assert_eq!(written(punching(3, 1, &[x])), asked(3, "1 1 XD-250 -> 19 15 0 \\254`_"));
        assert_eq!(written(punching(1, 1_000, &[])), asked(1, "1000 0 -> 17 0 0 \\254"));
        assert_eq!(written(punching(1, 1, &[x, g])), asked(1, "1 2 XD-250 GN1 -> 16 2 0 \\254"));
        assert_eq!(written(punching(1, 1, &[CLEARED])), asked(1, "1 1 #0N0 -> 16 1 0 \\254"));
        assert_eq!(written(punching(1, 1, &[(b'F', Value::Speed(Speed::Rate(999)))])), asked(1, "1 1 FS999 -> 18 1 0 \\254"));
        assert_eq!(written(punching(1, 1, &[(b'F', Value::Speed(Speed::Stop))])), asked(1, "1 1 FSstop -> 18 1 0 \\254"));
    }

    #[test]
    fn rubbish_behind_the_count() {
        let opening = Opening { skip: true, ..Opening::numbered(7) };
        let mut record = Record::from(&Block { opening, words: vec![] });
        assert_eq!(record_text(&record), "/ N 7 0");
        record.places[1] = (200, Value::Plain(7));
        assert_eq!(record_text(&record), "/ N 7 0 #0N0 #200N7");
        record.count = 3;
        assert_eq!(record_text(&record), "/ N 7 3 #0N0 #200N7 #0N0");
    }

    #[test]
    fn numbers_and_heads() {
        let speed = |digits, code| written(Line::Speed { digits, code });
        let code = |digits, speed| written(Line::Code { digits, speed });
        let exact = |digits, speed| written(Line::ExactCode { digits, speed });
        assert_eq!(speed(3, 717), "S 3 717 -> 0 0 17000000000");
        assert_eq!(speed(3, 100), "S 3 100 -> 13 0 0");
        assert_eq!(speed(2, 0), "S 2 0 -> 0 0 stop");
        assert_eq!(speed(2, 99), "S 2 99 -> 0 0 rapid");
        assert_eq!(speed(2, 46), "S 2 46 -> 0 0 2000000000");
        assert_eq!(speed(2, 100), "S 2 100 -> 21 0 0");
        assert_eq!(code(4, Speed::Rate(152_500_000)), "C 4 152500000 -> 0 0 5153");
        assert_eq!(code(2, Speed::Stop), "C 2 stop -> 0 0 0");
        assert_eq!(code(2, Speed::Rapid), "C 2 rapid -> 0 0 99");
        assert_eq!(code(3, Speed::Stop), "C 3 stop -> 20 0 0");
        assert_eq!(exact(2, Speed::Stop), "X 2 stop -> 0");
        assert_eq!(exact(2, Speed::Rate(11_200_000)), "X 2 11200000 -> 1");
        assert_eq!(exact(3, Speed::Rapid), "X 3 rapid ->");
        let head = |room| written(Line::Head { room, first: 9 });
        assert_eq!(head(4), "H 4 9 -> 0 0 2 %~\\011\\012");
        assert_eq!(head(1), "H 1 9 -> 19 2 0 ^");
        assert_eq!(head(0), "H 0 9 -> 19 2 0");
    }

    #[test]
    fn words_of_two_digits() {
        let nth = Nth { specification: Specification::new(2539, "N3F2S2*", ""), n: 0, tape: rows("%\nN001F00S99\n") };
        assert_eq!(written(Line::Block(nth)), "W 2539 N3F2S2* 0 %~N001F00S99~ -> 0 0 - N 1 2 FSstop SSrapid");
        let lines: Vec<String> = spelt_speeds().into_iter().map(written).collect();
        assert_eq!(lines[1], "C 2 r9 -> 0 0 99");
        assert_eq!(lines[7], "J 2539 N3F2* 8 0 - N 1 1 FSs -> 0 0 8 N001F00~");
    }

    #[test]
    fn records_without_number() {
        let x = vec![(b'X', Value::Dimension(5))];
        let record = |sequence| Record::from(&Block { opening: Opening { sequence, ..Opening::BARE }, words: x.clone() });
        assert_eq!(record_text(&record(0)), "- N - 1 XD5");
        assert_eq!(record_text(&record(7)), "- N -7 1 XD5");
        let specification = Specification::new(2539, "N3X+042*", "");
        let line = |n| Line::Block(Nth { specification: specification.clone(), n, tape: rows("%\n/X5\nN000\n") });
        assert_eq!(written(line(0)), "W 2539 N3X+042* 0 %~/X5~N000~ -> 0 0 / N - 1 XD5");
        assert_eq!(written(line(1)), "W 2539 N3X+042* 1 %~/X5~N000~ -> 0 0 - N 0 0");
        assert_eq!(written(line(2)), "W 2539 N3X+042* 2 %~/X5~N000~ -> 15 2 - N - 0");
        assert_eq!([0, 1, 2].map(|n| line(n).answer().unwrap().unnumbered), [true, false, false]);
        let lines: Vec<String> = spelt_numbers().into_iter().map(written).collect();
        assert_eq!(lines[1], "J 2539 N3T1* 7 0 / N -007 1 TN5 -> 0 0 4 /T5~\\004\\005\\006");
        assert_eq!(lines[3], "J 2539 N3T1* 7 0 - : -1 1 TN5 -> 16 0 0 _\\001\\002\\003\\004\\005\\006");
        assert_eq!(lines[5], "J 2539 N3T1* 7 0 - N - -> 16 0 0 _\\001\\002\\003\\004\\005\\006");
        assert_eq!(lines[7], "J 2539 N3T1* 7 0 - N 000 1 TN5 -> 0 0 7 N000T5~");
    }

    /// What a tape is refused with is the same whatever is asked.
    #[test]
    fn tapes_are_answered_as_they_were_made() {
        let posed = tapes(11, 5_000);
        let known = posed.iter().filter(|posed| posed.known.is_some());
        assert!(known.clone().count() > 500);
        for posed in known {
            let text = posed.line.text();
            let reply = posed.reply(&text).map(|reply| (reply.number, reply.place));
            assert!(reply.is_none() || reply == posed.known, "{}", text.escape_ascii());
        }
    }

    #[test]
    fn rows_as_text() {
        assert_eq!(rows_text(&rows("%\n\t\0\x7F\r(A B)")), "%~^_`&(A\\160B)");
        assert_eq!(asked(&rows("(A B)")), "(A B)");
        // odd rows, an even one without a sign, and the notation's own signs
        assert_eq!(rows_text(&[37, 1, 3, punched(b'~'), punched(b'?'), punched(b'\\')]), "?%\\001\\003\\126\\063\\092");
        // an odd SP has no character either, and DEL without its eighth hole has
        assert_eq!(rows_text(&[32, 127, 128]), "\\032?`?_");
        assert_eq!(rows_text(&[33, 225]), "!a");
    }

    #[test]
    fn lines_that_are_not_asked() {
        assert_eq!(written(Line::Remark(b"# X".to_vec())), "# X");
        for posed in edges() {
            let text = posed.line.text();
            let reply = posed.reply(&text);
            let one = ["B 1057 ", "B 2539 ", "G 2539 ", "C 2", "X 2 ", "J 2539 "];
            let two = ["IB ", "IA ", "IO ", "IL ", "IW ", "IP ", "IN ", "CP ", "CE ", "CI ", "SV "];
            let asks = one.iter().chain(&two).any(|start| text.starts_with(start.as_bytes()));
            assert_eq!(reply.is_some(), asks && text.len() <= MOST_BYTES);
        }
    }
}
