//! The inputs of the comparison, each settled by the seed and its number, and what the reader answers.

use super::chance::Chance;
use super::misplaced::{self, Slipped};
use super::profiles::{self, General};
use super::{damage, preferred, programs, unnumbered};
use crate::rows::{punched, LF, MOST_ROWS};
use crate::specification::Specification;
use crate::speeds::Speed;
use crate::{count_blocks, listing, punching, speeds, Refusal};
use std::fmt;

/// One call of the library.
#[derive(Clone)]
pub enum Ask {
    /// how many blocks
    Count {
        /// what the tape is judged by
        specification: Specification,
        /// its rows
        tape: Vec<u8>,
    },
    /// code to speed
    Speed {
        /// how many digits
        digits: u32,
        /// the code
        code: u64,
    },
    /// speed to code
    Code {
        /// how many digits
        digits: u32,
        /// the speed's kind, or a number that is none's
        kind: u32,
        /// its units, which only a rate has
        units: u64,
    },
    /// the head into a buffer
    Head {
        /// how many rows it has
        length: usize,
        /// its first row before the call
        first: u8,
    },
}

/// What a call answers: number, place, kind and value, and the lent buffer after it.
#[derive(Clone, Debug, PartialEq, Eq)]
pub struct Answer {
    /// 0 or a refusal
    pub number: u64,
    /// 0 or the refusal's place
    pub place: u64,
    /// of a speed; 0 where refused, and for all other values
    pub kind: u64,
    /// 0 where refused; a speed's units
    pub value: u64,
    /// the whole buffer of a head
    pub buffer: Vec<u8>,
}

/// An input, and the answer where it is known from the making.
pub struct Input {
    /// the call
    pub ask: Ask,
    /// what it must answer
    pub known: Option<Answer>,
}

/// A buffer as it is lent: each row is one more than the row before it.
pub fn lent(length: usize, first: u8) -> Vec<u8> {
    (0..length).map(|at| first.wrapping_add(at as u8)).collect()
}

/// The kinds of speeds by their numbers in include/crumbtrellis.h.
const RATE: u32 = 0;
const STOP: u32 = 1;
const RAPID: u32 = 2;

/// The speed that C hands over by these numbers; none where they are no speed's.
pub(super) fn handed_speed(kind: u32, units: u64) -> Option<Speed> {
    match (kind, units) {
        (RATE, _) => Some(Speed::Rate(units)),
        (STOP, 0) => Some(Speed::Stop),
        (RAPID, 0) => Some(Speed::Rapid),
        _ => None,
    }
}

/// The code of what C hands over: what is no speed can't be coded either.
fn handed_code(digits: u32, kind: u32, units: u64) -> Result<u64, Refusal> {
    speeds::judge_length(digits)?;
    let speed = handed_speed(kind, units).ok_or(Refusal::new(20, 0))?;
    speeds::code_of(digits, speed)
}

impl Answer {
    /// Any other value than a speed.
    fn of(result: Result<u64, Refusal>) -> Answer {
        Answer::told(result.map(|value| (RATE, value)))
    }

    fn of_speed(result: Result<Speed, Refusal>) -> Answer {
        Answer::told(result.map(|speed| match speed {
            Speed::Rate(units) => (RATE, units),
            Speed::Stop => (STOP, 0),
            Speed::Rapid => (RAPID, 0),
        }))
    }

    /// A kind and a value, or a refusal.
    fn told(result: Result<(u32, u64), Refusal>) -> Answer {
        let (number, place, (kind, value)) = match result {
            Ok(told) => (0, 0, told),
            Err(refusal) => (u64::from(refusal.number), refusal.place, (0, 0)),
        };
        Answer { number, place, kind: u64::from(kind), value, buffer: Vec::new() }
    }
}

impl Ask {
    /// The reader's answer.
    pub fn answer(&self) -> Answer {
        match self {
            Ask::Count { specification, tape } => Answer::of(count_blocks(specification, tape)),
            Ask::Speed { digits, code } => Answer::of_speed(speeds::speed_of(*digits, *code)),
            Ask::Code { digits, kind, units } => Answer::of(handed_code(*digits, *kind, *units)),
            Ask::Head { length, first } => {
                let mut buffer = lent(*length, *first);
                let result = punching::punch_head(&mut buffer);
                Answer { buffer, ..Answer::of(result) }
            }
        }
    }
}

impl Input {
    fn count(specification: Specification, tape: Vec<u8>) -> Input {
        Input { ask: Ask::Count { specification, tape }, known: None }
    }

    fn known(self, result: Result<u64, Refusal>) -> Input {
        Input { known: Some(Answer::of(result)), ..self }
    }

    fn of(ask: Ask) -> Input {
        Input { ask, known: None }
    }
}

/// About `size` inputs of tapes, shorthands and profiles, the same for the same seed.
pub fn tapes(seed: u64, size: usize) -> Vec<Input> {
    let chance = &mut Chance::new(seed);
    let mut inputs = Vec::with_capacity(size + 400);
    while inputs.len() < size {
        match chance.below(200) {
            0 => cut_tapes(chance, &mut inputs),
            1 => cut_shorthands(chance, &mut inputs),
            2 if chance.happens(1, 2) => bad_middling_tape(chance, &mut inputs),
            2..=5 => other_edition(chance, &mut inputs),
            6..=20 => odd_holes(chance, &mut inputs),
            21..=42 => bad_shorthand(chance, &mut inputs),
            43..=50 => slipped_shorthand(chance, &mut inputs),
            51..=60 => other_format(chance, &mut inputs),
            61..=100 => sound(chance, &mut inputs),
            101..=108 => faulty_profile(chance, &mut inputs),
            109..=114 => damaged_profile(chance, &mut inputs),
            115 => cut_profiles(chance, &mut inputs),
            116..=120 => other_profile(chance, &mut inputs),
            121..=128 => faults_of_stages(chance, &mut inputs),
            129..=136 => slipped_start(chance, &mut inputs),
            _ => bad_tape(chance, &mut inputs),
        }
    }
    inputs
}

/// A sound tape: its count is known from the making, and so is its listing.
fn sound(chance: &mut Chance, inputs: &mut Vec<Input>) {
    let plan = programs::plan(chance);
    let most = if chance.happens(1, 50) { 60 } else { 7 };
    let tape = programs::tape(chance, &plan, most);
    let blocks = tape.blocks.len() as u64;
    inputs.push(Input::count(plan.specification, tape.rows).known(Ok(blocks)));
}

fn bad_tape(chance: &mut Chance, inputs: &mut Vec<Input>) {
    let plan = programs::plan(chance);
    let mut rows = if chance.happens(1, 2) {
        programs::slipped_rows(chance, &plan, 5)
    } else {
        let mut rows = programs::tape(chance, &plan, 5).rows;
        damage::tape(chance, &mut rows);
        rows
    };
    if chance.happens(1, 16) {
        damage::tape(chance, &mut rows);
    }
    inputs.push(Input::count(plan.specification, rows));
}

/// A slip where a block begins, or where one without a number goes on.
fn slipped_start(chance: &mut Chance, inputs: &mut Vec<Input>) {
    let unnumbered::Slipped { specification, tape, refusal } = unnumbered::slipped(chance);
    inputs.push(Input::count(specification, tape).known(Err(refusal)));
}

/// Some thousands of rows with faults of several stages, which must not speak out of turn.
fn bad_middling_tape(chance: &mut Chance, inputs: &mut Vec<Input>) {
    let plan = programs::plan(chance);
    let length = 4_000 + chance.below(12_000);
    let mut rows = programs::long_tape(chance, &plan, length).rows;
    for _ in 0..1 + chance.below(3) {
        let at = chance.below(rows.len());
        rows[at] = chance.one_of(&[1, 33, 33, punched(b'('), punched(b')'), punched(b'X')]);
    }
    inputs.push(Input::count(plan.specification, rows));
}

/// Some faults of the first three stages anywhere on a sound tape: 5 comes before 6, and 6 before 7.
fn faults_of_stages(chance: &mut Chance, inputs: &mut Vec<Input>) {
    const ODD: u8 = 1;
    const FOREIGN: u8 = 33;
    let plan = programs::plan(chance);
    let mut rows = programs::tape(chance, &plan, 5).rows;
    for _ in 0..2 + chance.below(3) {
        let at = chance.below(rows.len());
        rows[at] = chance.one_of(&[ODD, FOREIGN, FOREIGN, punched(b'('), punched(b')'), punched(b')')]);
    }
    let lowest = |number, fault| rows.iter().position(|&row| row == fault).map(|at| Refusal::new(number, at));
    let known = lowest(5, ODD).or(lowest(6, FOREIGN));
    let input = Input::count(plan.specification, rows);
    inputs.push(match known {
        Some(refusal) => input.known(Err(refusal)),
        None => input,
    });
}

/// A bad shorthand, which is judged before a profile, and that before the tape.
fn bad_shorthand(chance: &mut Chance, inputs: &mut Vec<Input>) {
    let plan = programs::plan(chance);
    let rows = programs::tape(chance, &plan, 2).rows;
    let profile = profiles::any(chance, &plan);
    let shorthand = bad_text(chance, plan.specification.shorthand);
    inputs.push(Input::count(Specification { edition: either_edition(chance), shorthand, profile }, rows));
}

/// A feed where none may stand, or the like.
fn slipped_shorthand(chance: &mut Chance, inputs: &mut Vec<Input>) {
    let Slipped { plan, specification, refusal } = misplaced::slipped(chance);
    let rows = programs::tape(chance, &plan, 2).rows;
    inputs.push(Input::count(specification, rows).known(Err(refusal)));
}

/// A tape read by a specification that it was not made by.
fn other_format(chance: &mut Chance, inputs: &mut Vec<Input>) {
    let plan = programs::plan(chance);
    let other = programs::plan(chance);
    let rows = programs::tape(chance, &plan, 3).rows;
    if chance.happens(1, 2) {
        inputs.push(Input::count(other.specification, rows));
    } else {
        let edition = either_edition(chance);
        inputs.push(Input::count(Specification { edition, ..plan.specification }, rows));
    }
}

/// A profile out of form, or one that the shorthand doesn't agree with, whatever stands on the tape.
fn faulty_profile(chance: &mut Chance, inputs: &mut Vec<Input>) {
    let plan = programs::plan(chance);
    let mut rows = programs::tape(chance, &plan, 2).rows;
    if chance.happens(1, 2) {
        damage::tape(chance, &mut rows);
    }
    let (profile, refusal) = profiles::faulty(chance, &plan);
    inputs.push(Input::count(Specification { profile, ..plan.specification }, rows).known(Err(refusal)));
}

fn damaged_profile(chance: &mut Chance, inputs: &mut Vec<Input>) {
    let plan = programs::plan(chance);
    let rows = programs::tape(chance, &plan, 2).rows;
    let profile = profiles::damaged(chance, &plan);
    inputs.push(Input::count(Specification { profile, ..plan.specification }, rows));
}

/// A profile cut at every length.
fn cut_profiles(chance: &mut Chance, inputs: &mut Vec<Input>) {
    let plan = programs::plan(chance);
    let rows = programs::tape(chance, &plan, 1).rows;
    let whole = if chance.happens(1, 2) { profiles::any(chance, &plan) } else { plan.specification.profile.clone() };
    inputs.extend((0..=whole.len()).map(|length| {
        let profile = whole[..length].to_vec();
        Input::count(Specification { profile, ..plan.specification.clone() }, rows.clone())
    }));
}

/// A tape read under another profile than its own, that may agree too, or under none.
fn other_profile(chance: &mut Chance, inputs: &mut Vec<Input>) {
    let plan = programs::plan(chance);
    let rows = programs::tape(chance, &plan, 3).rows;
    let profile = match chance.below(4) {
        0 => Vec::new(),
        1 => programs::plan(chance).specification.profile,
        _ => General::drawn(chance, &plan).map_or(Vec::new(), |other| other.text()),
    };
    inputs.push(Input::count(Specification { profile, ..plan.specification }, rows));
}

fn other_edition(chance: &mut Chance, inputs: &mut Vec<Input>) {
    let plan = programs::plan(chance);
    let mut rows = programs::tape(chance, &plan, 2).rows;
    let mut specification = Specification { edition: strange_edition(chance), ..plan.specification.clone() };
    if chance.happens(1, 2) {
        damage::tape(chance, &mut rows);
        damage::shorthand(chance, &mut specification.shorthand);
        specification.profile = profiles::any(chance, &plan);
    }
    inputs.push(Input::count(specification, rows));
}

/// A tape cut at every length.
fn cut_tapes(chance: &mut Chance, inputs: &mut Vec<Input>) {
    let plan = programs::plan(chance);
    let mut rows = programs::tape(chance, &plan, 3).rows;
    if chance.happens(1, 4) {
        damage::tape(chance, &mut rows);
    }
    rows.truncate(250);
    inputs.extend((0..=rows.len()).map(|length| Input::count(plan.specification.clone(), rows[..length].to_vec())));
}

/// A shorthand cut at every length.
fn cut_shorthands(chance: &mut Chance, inputs: &mut Vec<Input>) {
    let plan = programs::plan(chance);
    let rows = programs::tape(chance, &plan, 1).rows;
    let Specification { shorthand: mut text, profile, .. } = plan.specification;
    if chance.happens(1, 4) {
        damage::shorthand(chance, &mut text);
    }
    let edition = either_edition(chance);
    let cut = |length| Specification::new(edition, &text[..length], &profile);
    inputs.extend((0..=text.len()).map(|length| Input::count(cut(length), rows.clone())));
}

/// An odd number of holes changed in each of some rows of a sound tape: 5 at the first of them.
fn odd_holes(chance: &mut Chance, inputs: &mut Vec<Input>) {
    let plan = programs::plan(chance);
    let mut rows = programs::tape(chance, &plan, 5).rows;
    let mut chosen: Vec<usize> = (0..1 + chance.below(4)).map(|_| chance.below(rows.len())).collect();
    chosen.sort_unstable();
    chosen.dedup();
    for &at in &chosen {
        rows[at] ^= damage::holes(chance, 1);
    }
    inputs.push(Input::count(plan.specification, rows).known(Err(Refusal::new(5, chosen[0]))));
}

/// A shorthand that is hardly ever sound: pieces of some, or damage to `text`.
pub(super) fn bad_text(chance: &mut Chance, mut text: Vec<u8>) -> Vec<u8> {
    if chance.happens(1, 3) {
        return damage::pieces(chance);
    }
    damage::shorthand(chance, &mut text);
    text
}

pub(super) fn either_edition(chance: &mut Chance) -> u32 {
    chance.one_of(&[1057, 2539])
}

/// A number that is hardly ever an edition's.
pub(super) fn strange_edition(chance: &mut Chance) -> u32 {
    let near = [0, 1, 1056, 1058, 2538, 2540, 1057 + 65536, 2539 + 65536, 1057 << 16, u32::MAX, 0x8000_0000 + 1057];
    if chance.happens(1, 2) {
        chance.one_of(&near)
    } else {
        chance.number() as u32
    }
}

/// Tapes at and over the limit, `size` of them.
pub fn long_tapes(seed: u64, size: usize) -> Vec<Input> {
    let chance = &mut Chance::new(seed);
    (0..size).map(|at| long_tape(chance, at)).collect()
}

fn long_tape(chance: &mut Chance, at: usize) -> Input {
    let plan = programs::plan(chance);
    if at & 15 == 0 {
        let tape = programs::long_tape(chance, &plan, MOST_ROWS);
        let blocks = tape.blocks.len() as u64;
        return Input::count(plan.specification, tape.rows).known(Ok(blocks));
    }
    // what stands on it does not matter: the length is judged before all else
    let row = chance.one_of(&[0, 1, 33, 255, 40]);
    let length = MOST_ROWS + 1 + if chance.happens(1, 2) { 0 } else { chance.below(1000) };
    let tape = vec![row; length];
    Input::count(plan.specification, tape).known(Err(Refusal::new(4, MOST_ROWS)))
}

/// Telling bytes, and beginnings of shorthands that every short text of them follows.
pub const SHORTHAND_STARTS: &[(&[u8], &[&str])] = &[
    (
        b".XIGMF+D023*N",
        &["", "N", "N3", "N4", "N3.", "N3.X", "N3.XD", "N3.X0", "N3X", "N3.M2", "N3M2", "N3.X42", "N3X42", "N3.T1."],
    ),
    // feeds behind an axis, behind N and behind each other
    (b".EDYFG+0234*", &["N3.X42.E3", "N3.X42.E3.D", "N3X42D3", "N3.D"]),
    // speeds of two digits
    (b".EFSTD+0235*", &["N3.", "N3F2", "N3.X42.F2", "N3S"]),
];

/// Every shorthand of `start` and at most four of those bytes, by both editions.
pub fn short_shorthands(bytes: &[u8], start: &str) -> Vec<Input> {
    let mut inputs = Vec::new();
    for end in texts(bytes, 4) {
        let text = [start.as_bytes(), &end].concat();
        inputs.extend([1057, 2539].map(|edition| Input::count(Specification::new(edition, &text, ""), head())));
    }
    inputs
}

fn head() -> Vec<u8> {
    vec![punched(b'%'), punched(LF)]
}

/// Editions and formats, and beginnings of profiles that every short text of telling bytes follows.
pub const PROFILE_STARTS: &[(u32, &str, &[&str])] = &[
    (1057, "N3.X+42.B42*", &["", "IP", "ILM", "IPMR", "IPMD ", "ILI2", "IPMR32"]),
    (2539, "N3.X+42.I42*", &["", "L", "LT", "LTM", "PSM ", "LTM1", "LSM11", "PTM 110"]),
    (2539, "N3X42*", &["LAM", "PAM1"]),
    (2539, "N3XD42ED42*", &["LAM", "LAMR22"]),
    (2539, "N3*", &["PTM0", "LAM 00"]),
];

/// Every profile of `start` and at most four bytes.
pub fn short_profiles(edition: u32, shorthand: &str, start: &str) -> Vec<Input> {
    let profiles = texts(b"IPTMRDA 012", 4).into_iter().map(|end| [start.as_bytes(), &end].concat());
    profiles.map(|profile| Input::count(Specification::new(edition, shorthand, profile), head())).collect()
}

/// Telling characters; and editions, formats, profiles and beginnings of tapes that every short run of them follows.
pub const TAPE_STARTS: &[(&[u8], &[TapeStart])] = &[
    (
        b"\0\t\n\r0+-/:()%NXF",
        &[
            (1057, "N3.X+11.F3*", "", ""),
            (1057, "N3.X+11.F3*", "", "%"),
            (1057, "N3.X+11.F3*", "", "%\nN001"),
            (1057, "N3.X+11.F3*", "", "%\nN001\t"),
            (1057, "N3.X+11.F3*", "", "%\nN001\tX"),
            (1057, "N3.X+11.F3*", "", "%\nN001\t\tF1"),
            (2539, "N3.X11.F3*", "", "%\n/:001\tX0"),
            (2539, "N3X+011F3*", "", "%\nN001"),
            (2539, "N3X+011F3*", "", "%\nN001X"),
            (2539, "N3XD110F3*", "", "%\nN001X-0"),
            (2539, "N3X11F3*", "", "%\nN001X11F0"),
            (2539, "N3*", "", "%\nN00"),
            (2539, "N3*", "", "%\n(A"),
        ],
    ),
    // words of E and D as feed and as dimension
    (b"\0\t\n01+DEF", &[(1057, "N3.X+11.E3.D+11*", "", "%\nN001\t\tE1"), (2539, "N3X11D3E01F3*", "", "%\nN001D11")]),
    // words without addresses
    (
        b"\0\t\n\r01+-(XF ",
        &[
            (2539, "N3.X+011.F3*", "LTM110A", "%\nN001"),
            (2539, "N3.X+011.F3*", "LTM110A", "%\nN001\t"),
            (2539, "N3.X+011.F3*", "LTM110A", "%\nN001\t-0\t1"),
            (2539, "N3.X11.T1*", "PTM111A", "%\nN001\t"),
            (2539, "N3.X11.T1*", "PTM111A", "%\n/:001\t00\t"),
            (2539, "N3.XD110*", "PTM 910 I", "%\nN001\t"),
            (2539, "N3*", "LTM000B", "%\nN001"),
        ],
    ),
    // speeds of two digits
    (
        b"\0\t\n\r019+FS",
        &[
            (2539, "N3.F2.S3*", "", "%\nN001\tF"),
            (2539, "N3.F2.S3*", "LTM000A", "%\nN001\t"),
            (2539, "N3F2S2*", "", "%\nN001F0"),
            (2539, "N3F2S2*", "", "%\nN001F99S"),
        ],
    ),
    // blocks with no number, and rows that begin none
    (
        b"\0\t\n\r01/:%NXF",
        &[
            (2539, "N3X+011F3*", "", "%\n"),
            (2539, "N3X+011F3*", "", "%\n/"),
            (2539, "N3X+011F3*", "", "%\nF000\n"),
            (2539, "N3.X+011.F3*", "", "%\n"),
            (2539, "N3.X+011.F3*", "", "%\n\t"),
            (2539, "N3.X+011.F3*", "", "%\n/\t\t"),
            (2539, "N3.X+011.F3*", "", "%\n\tX1\t\n"),
            (2539, "N3.X+011.F3*", "LTM110A", "%\n"),
            (2539, "N3.X+011.F3*", "LTM110A", "%\n/\t"),
            (2539, "N3*", "", "%\n"),
            (2539, "N3*", "LTM000A", "%\n/"),
            (1057, "N3.X+11.F3*", "", "%\n"),
            (1057, "N3.X+11.F3*", "", "%\nN001\n/"),
        ],
    ),
];

/// An edition, a format, a profile and the beginning of a tape.
pub type TapeStart = (u32, &'static str, &'static str, &'static str);

/// Every tape of a beginning and at most four of those characters.
pub fn short_tapes(characters: &[u8], start: &TapeStart) -> Vec<Input> {
    let (edition, shorthand, profile, start) = start;
    let tape = |end: Vec<u8>| start.bytes().chain(end).map(punched).collect();
    let input = |end| Input::count(Specification::new(*edition, shorthand, profile), tape(end));
    texts(characters, 4).into_iter().map(input).collect()
}

/// Every text of at most `most` of the given bytes.
pub(crate) fn texts(bytes: &[u8], most: usize) -> Vec<Vec<u8>> {
    let mut all = vec![Vec::new()];
    let mut longest = 0..1;
    for _ in 0..most {
        let next = all.len();
        for shorter in longest {
            for &byte in bytes {
                let mut text: Vec<u8> = all[shorter].clone();
                text.push(byte);
                all.push(text);
            }
        }
        longest = next..all.len();
    }
    all
}

/// Codes, speeds and heads: all edges, and `size` random ones.
pub fn numbers(seed: u64, size: usize) -> Vec<Input> {
    let chance = &mut Chance::new(seed);
    let mut inputs: Vec<Input> = (0..=64).map(|length| Input::of(Ask::Head { length, first: 90 })).collect();
    inputs.extend(preferred_numbers());
    let lengths = [0, 1, 2, 3, 4, 5, 6, 7, 1 << 31, u32::MAX, (1 << 16) + 2, (1 << 16) + 3];
    let mut edges = vec![u64::MAX, u64::MAX - 1, 1 << 63, 1 << 32];
    for power in 0..20 {
        let ten = 10u64.pow(power);
        for digits in [1, 5, 95, 99, 995, 994, 999, 9995, 9994, 9999, 99995, 99994, 99999, 15, 105, 1005] {
            let scaled = u64::checked_mul(digits, ten);
            edges.extend(scaled.into_iter().flat_map(|n| [n.saturating_sub(1), n, n.saturating_add(1)]));
        }
    }
    let preferred: Vec<u64> = preferred::edges().into_iter().map(|(units, _)| units).collect();
    for &digits in &lengths {
        inputs.extend(edges.iter().chain(&preferred).map(|&units| Input::of(Ask::Code { digits, kind: RATE, units })));
        inputs.extend(edges.iter().copied().chain(0..=101).map(|code| Input::of(Ask::Speed { digits, code })));
        for &kind in KINDS {
            inputs.extend([0, 1, 99, 11_200_000, u64::MAX].map(|units| Input::of(Ask::Code { digits, kind, units })));
        }
    }
    inputs.extend((0..size).map(|_| Input::of(random_number(chance))));
    inputs
}

/// The kinds of speeds, and numbers that are none's.
const KINDS: &[u32] = &[RATE, STOP, RAPID, 3, 4, 1 << 8, (1 << 16) + STOP, 1 << 31, u32::MAX];

/// The hundred codes and one more, and their speeds, with what they must answer.
fn preferred_numbers() -> Vec<Input> {
    let code =
        |kind, units, known: Option<u64>| Input::of(Ask::Code { digits: 2, kind, units }).known(known.ok_or(Refusal::new(20, 0)));
    let mut inputs = vec![code(STOP, 0, Some(0)), code(RAPID, 0, Some(99))];
    inputs.extend(preferred::edges().into_iter().map(|(units, known)| code(RATE, units, known)));
    for number in 0..=100 {
        let known = if number < 100 { Ok(preferred::speed(number)) } else { Err(Refusal::new(21, 0)) };
        inputs.push(Input { ask: Ask::Speed { digits: 2, code: number }, known: Some(Answer::of_speed(known)) });
    }
    inputs
}

fn random_number(chance: &mut Chance) -> Ask {
    let digits = 2 + chance.below(4) as u32;
    let units = chance.number() >> chance.below(64);
    match chance.below(8) {
        0 => Ask::Head { length: room(chance), first: chance.below(256) as u8 },
        1 => Ask::Code { digits, kind: chance.one_of(KINDS), units: chance.one_of(&[0, 0, units]) },
        2..=4 => Ask::Code { digits, kind: RATE, units },
        _ => Ask::Speed { digits, code: chance.number() % 10u64.pow(digits) },
    }
}

/// Mostly a few rows.
fn room(chance: &mut Chance) -> usize {
    let most = chance.one_of(&[4, 16, 300]);
    chance.below(most)
}

/// What a program that lists is handed.
pub struct Listed {
    /// its standard input
    pub input: Vec<u8>,
    /// its argument, where there is one
    pub profile: Option<Vec<u8>>,
    /// its output, where that is known from the making
    pub known: Option<String>,
}

/// Inputs of the listing program, `size` of them.
pub fn listings(seed: u64, size: usize) -> Vec<Listed> {
    let chance = &mut Chance::new(seed);
    (0..size).map(|at| listed(chance, at)).collect()
}

fn listed(chance: &mut Chance, at: usize) -> Listed {
    if at % 100 == 7 {
        return long_listing(chance);
    }
    if chance.happens(1, 16) {
        return slipped_listing(chance);
    }
    let plan = programs::plan(chance);
    let mut tape = programs::tape(chance, &plan, 6);
    let Specification { edition, shorthand, mut profile } = plan.specification.clone();
    let mut header = header(edition, &shorthand);
    let mut known = None;
    match chance.below(14) {
        0..=4 => known = Some(listing::text(plan.sequence as u32, &tape.blocks)),
        5 | 6 => damage::tape(chance, &mut tape.rows),
        7 | 8 => tape.rows = programs::slipped_rows(chance, &plan, 6),
        9 => damage::shorthand(chance, &mut header),
        10 => {
            let (faulty, refusal) = profiles::faulty(chance, &plan);
            (profile, known) = (faulty, Some(format!("{refusal}\n")));
        }
        11 => profile = profiles::damaged(chance, &plan),
        _ => header = odd_header(chance, &shorthand),
    }
    Listed { input: [header, tape.rows].concat(), profile: argument(chance, profile), known }
}

/// A slip where a block begins, or where one without a number goes on.
fn slipped_listing(chance: &mut Chance) -> Listed {
    let unnumbered::Slipped { specification, tape, refusal } = unnumbered::slipped(chance);
    let Specification { edition, shorthand, profile } = specification;
    let input = [header(edition, &shorthand), tape].concat();
    Listed { input, profile: argument(chance, profile), known: Some(format!("{refusal}\n")) }
}

/// A profile as an argument, which can't have a NUL; none is no argument, or an empty one.
pub(super) fn argument(chance: &mut Chance, mut profile: Vec<u8>) -> Option<Vec<u8>> {
    profile.retain(|&byte| byte != 0);
    (!profile.is_empty() || chance.happens(1, 3)).then_some(profile)
}

pub(super) fn header(edition: u32, shorthand: &[u8]) -> Vec<u8> {
    [edition.to_string().as_bytes(), b" ", shorthand, b"\n"].concat()
}

/// A header at the edges of its rules.
pub(super) fn odd_header(chance: &mut Chance, shorthand: &[u8]) -> Vec<u8> {
    let edition = chance.one_of(&["1057", "2539", "1058", "", "01057", "2539.", "1057\0", "105", "+1057", "1057\r"]);
    let between = chance.one_of(&[" ", " ", "", "  ", "\t", "."]);
    let mut header = [edition.as_bytes(), between.as_bytes(), shorthand].concat();
    if chance.happens(1, 3) {
        // LF at byte 198 to 203, so within or just past the first 200
        header.resize(198 + chance.below(6), chance.one_of(b" *.0"));
    }
    if chance.happens(5, 6) {
        header.push(b'\n');
    }
    if chance.happens(1, 8) {
        header.truncate(chance.below(header.len() + 1));
    }
    header
}

/// As many rows as the listing program takes, or one more or many more.
fn long_listing(chance: &mut Chance) -> Listed {
    let plan = programs::plan(chance);
    let length = chance.one_of(&[60_000, 59_999]);
    let mut rows = programs::long_tape(chance, &plan, length).rows;
    let more = chance.one_of(&[0, 0, 1, 2, 5_000, 1_000_000]);
    rows.resize(length + more, chance.one_of(&[0, 1]));
    let Specification { edition, shorthand, profile } = &plan.specification;
    let (shorthand, profile) = match chance.below(10) {
        0 | 1 => (&b"N3X040*"[..], profile.clone()),
        2 => (&shorthand[..], profiles::any(chance, &plan)),
        _ => (&shorthand[..], profile.clone()),
    };
    Listed { input: [header(*edition, shorthand), rows].concat(), profile: argument(chance, profile), known: None }
}

impl fmt::Display for Answer {
    fn fmt(&self, to: &mut fmt::Formatter<'_>) -> fmt::Result {
        write!(to, "number {} place {} kind {} value {}", self.number, self.place, self.kind, self.value)?;
        if !self.buffer.is_empty() {
            write!(to, " buffer {:?}", self.buffer)?;
        }
        Ok(())
    }
}

impl fmt::Display for Ask {
    fn fmt(&self, to: &mut fmt::Formatter<'_>) -> fmt::Result {
        match self {
            Ask::Count { specification: Specification { edition, shorthand, profile }, tape } => {
                writeln!(to, "edition {edition}")?;
                writeln!(to, "shorthand \"{}\" ({} bytes)", shorthand.escape_ascii(), shorthand.len())?;
                writeln!(to, "profile \"{}\" ({} bytes)", profile.escape_ascii(), profile.len())?;
                writeln!(to, "tape of {} rows: {}", tape.len(), readable(tape))?;
                write!(to, "tape in hex: {}", hex(tape))
            }
            Ask::Speed { digits, code } => write!(to, "the speed of code {code} in {digits} digits"),
            Ask::Code { digits, kind, units } => write!(to, "the code of kind {kind} and {units} units in {digits} digits"),
            Ask::Head { length, first } => write!(to, "the head into {length} rows, {first} and on"),
        }
    }
}

/// The most rows that are printed.
const PRINTED: usize = 4_000;

/// A tape for the eye: an odd row is marked with "!".
pub fn readable(tape: &[u8]) -> String {
    let shown = &tape[..tape.len().min(PRINTED)];
    let mut text: String = shown
        .iter()
        .map(|row| {
            let odd = if row.count_ones() % 2 == 1 { "!" } else { "" };
            match row & 0x7F {
                0 => format!("{odd}<NUL>"),
                8 => format!("{odd}<BS>"),
                9 => format!("{odd}<HT>"),
                10 => format!("{odd}<LF>"),
                13 => format!("{odd}<CR>"),
                127 => format!("{odd}<DEL>"),
                character @ 32..=126 => format!("{odd}{}", character as char),
                other => format!("{odd}<{other}>"),
            }
        })
        .collect();
    if tape.len() > PRINTED {
        text += " ... and so on";
    }
    text
}

/// The rows as they are.
pub fn hex(tape: &[u8]) -> String {
    let shown = &tape[..tape.len().min(PRINTED)];
    shown.iter().map(|row| format!("{row:02x}")).collect()
}

#[cfg(test)]
mod tests {
    use super::*;

    /// What is no speed can't be coded, but the length is judged before it.
    #[test]
    fn speeds_from_c() {
        let code = |digits, kind, units| {
            let Answer { number, place, kind, value, .. } = Ask::Code { digits, kind, units }.answer();
            assert_eq!((place, kind), (0, 0));
            (number, value)
        };
        assert_eq!(code(2, STOP, 0), (0, 0));
        assert_eq!(code(2, RAPID, 0), (0, 99));
        assert_eq!(code(2, RATE, 2_000_000_000), (0, 46));
        assert_eq!(code(3, RATE, 0), (0, 0));
        for (kind, units) in [(STOP, 1), (RAPID, u64::MAX), (3, 0), (3, 2_000_000_000), (u32::MAX, 0)] {
            assert_eq!([1, 2, 3, 6].map(|digits| code(digits, kind, units)), [(21, 0), (20, 0), (20, 0), (21, 0)]);
        }
        let speed = |digits, code| {
            let Answer { number, kind, value, .. } = Ask::Speed { digits, code }.answer();
            (number, kind, value)
        };
        assert_eq!(speed(2, 0), (0, 1, 0));
        assert_eq!(speed(2, 99), (0, 2, 0));
        assert_eq!(speed(2, 46), (0, 0, 2_000_000_000));
        assert_eq!(speed(2, 100), (21, 0, 0));
        assert_eq!(speed(3, 0), (0, 0, 0));
    }

    #[test]
    fn numbers_are_answered_as_they_were_made() {
        let inputs = numbers(9, 10_000);
        let known = inputs.iter().filter_map(|input| Some((input, input.known.as_ref()?)));
        assert!(known.clone().count() > 600);
        for (input, known) in known {
            assert_eq!(input.ask.answer(), *known, "{}", input.ask);
        }
        for number in [0, 13, 19, 20, 21] {
            assert!(answered(&inputs, number) > 200, "{number}");
        }
    }

    /// How many of `inputs` succeed, or are refused with `number`.
    fn answered(inputs: &[Input], number: u64) -> usize {
        inputs.iter().filter(|input| input.ask.answer().number == number).count()
    }

    /// What is tried exhaustively tries something: each beginning of feeds and of two-digit speeds has sound and unsound ends.
    #[test]
    fn beginnings_of_feeds() {
        for (shorthands, tapes) in [(1, 1), (2, 3)] {
            let (bytes, starts) = SHORTHAND_STARTS[shorthands];
            let (characters, tapes) = TAPE_STARTS[tapes];
            let shorthands = starts.iter().map(|start| short_shorthands(bytes, start));
            for inputs in shorthands.chain(tapes.iter().map(|start| short_tapes(characters, start))) {
                let sound = answered(&inputs, 0);
                assert!((10..inputs.len() / 2).contains(&sound), "{sound} of {}", inputs.len());
            }
        }
        for (edition, shorthand, profile, _) in TAPE_STARTS.iter().flat_map(|(_, starts)| *starts) {
            assert!(Specification::new(*edition, shorthand, profile).format().is_ok(), "{shorthand} {profile}");
        }
    }

    /// The same of blocks with no number: of each edition and layout 9, and in 2539, where there are items, the rest too.
    #[test]
    fn beginnings_of_blocks() {
        let (characters, starts) = TAPE_STARTS[4];
        for start in starts {
            let all = short_tapes(characters, start);
            let [sound, nine, ten, cut] = [0, 9, 10, 14].map(|number| answered(&all, number));
            let (edition, shorthand, _, tape) = *start;
            assert!(nine > 200 && cut > 0, "{start:?}: {nine} {cut}");
            assert!(ten > 20 || edition == 1057, "{start:?}: {ten}");
            // five are of NUL alone; behind the last item's tab there is no room for a feed and an end
            let worded = edition == 2539 && shorthand != "N3*" && !tape.ends_with("\t\t");
            assert!(sound > 5 || !worded, "{start:?}: {sound}");
        }
    }

    /// The same of profiles and of tapes without addresses.
    #[test]
    fn beginnings_of_profiles() {
        for (edition, shorthand, starts) in PROFILE_STARTS {
            let all: Vec<Input> = starts.iter().flat_map(|start| short_profiles(*edition, shorthand, start)).collect();
            let [sound, out_of_form, disagreeing] = [0, 22, 23].map(|number| answered(&all, number));
            assert!(sound > 5 && out_of_form > 1_000 && disagreeing > 20, "{shorthand}: {sound} {out_of_form} {disagreeing}");
        }
        let (characters, starts) = TAPE_STARTS[2];
        let all: Vec<Input> = starts.iter().flat_map(|start| short_tapes(characters, start)).collect();
        for number in [0, 10, 11, 12, 13, 14] {
            assert!(answered(&all, number) > 20, "{number}");
        }
    }
}
