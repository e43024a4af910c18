//! Times counting blocks by the proved library, through the C host, and by the second reader.

use second_opinion::rows::{punched, MOST_ROWS};
use second_opinion::specification::Specification;
use second_opinion::trial::chance::Chance;
use second_opinion::trial::door::Door;
use second_opinion::trial::inputs::Ask;
use std::error::Error;
use std::fmt::Write;
use std::hint::black_box;
use std::path::Path;
use std::process::ExitCode;

const USAGE: &str = "usage: bench [--repeats N] -- COMMAND..., or bench --tapes FOLDER";
const SEED: u64 = 2539;

/// What is timed: a specification, and how the blocks of its tape are made.
struct Timed {
    edition: u32,
    shorthand: &'static str,
    profile: &'static str,
    block: fn(&mut Chance, &mut String),
}

/// With tabs and every digit; without tabs and with zeros dropped; as the first, but without addresses; as the second, but
/// hardly a block with a number.
const TIMED: [Timed; 4] = [
    Timed { edition: 1057, shorthand: "N3.G2.X+42.Y+42.Z+42.F3.S3.T2.M2*", profile: "", block: tabbed_block },
    Timed { edition: 2539, shorthand: "N4G2X+042Y+042Z+420I+042J+042F4S4T2M2*", profile: "", block: dropped_block },
    Timed { edition: 2539, shorthand: "N3.G2.X+42.Y+42.Z+42.F3.S3.T2.M2*", profile: "LTM333A", block: bare_block },
    Timed { edition: 2539, shorthand: "N4G2X+042Y+042Z+420I+042J+042F4S4T2M2*", profile: "", block: unnumbered_block },
];

fn main() -> ExitCode {
    match run() {
        Ok(()) => ExitCode::SUCCESS,
        Err(error) => {
            eprintln!("bench: {error}");
            ExitCode::FAILURE
        }
    }
}

fn run() -> Result<(), Box<dyn Error>> {
    let mut words = std::env::args().skip(1);
    let mut repeats = 15;
    let mut command = Vec::new();
    while let Some(word) = words.next() {
        match word.as_str() {
            "--repeats" => repeats = words.next().ok_or(USAGE)?.parse::<u64>()?.max(1),
            "--tapes" => return write_tapes(Path::new(&words.next().ok_or(USAGE)?)),
            "--" => command = words.by_ref().collect(),
            _ => return Err(USAGE.into()),
        }
    }
    let mut timer = Timer { door: Door::open(&command)?, repeats };
    println!(
        "seed {SEED}; each time is the processor's, the shortest of {repeats} rounds of {RUNS}; a ratio is the library's time over the reader's"
    );
    for timed in &TIMED {
        println!("\n{}", format!("{} {} {}", timed.edition, timed.shorthand, timed.profile).trim_end());
        timer.stages(timed)?;
        timer.growth(timed)?;
    }
    timer.door.close()?;
    Ok(())
}

/// The tapes that are timed, each as the listing program reads it, with its profile beside it.
fn write_tapes(folder: &Path) -> Result<(), Box<dyn Error>> {
    for (timed, name) in TIMED.iter().zip(["every_digit", "dropped_zeros", "no_addresses", "no_numbers"]) {
        let mut text = format!("{} {}\n", timed.edition, timed.shorthand).into_bytes();
        text.extend(timed.tape(MOST_ROWS));
        std::fs::write(folder.join(name), text)?;
        std::fs::write(folder.join(name).with_extension("profile"), timed.profile)?;
    }
    Ok(())
}

/// Seconds and nanoseconds, as the C library has them.
#[repr(C)]
struct Time {
    seconds: i64,
    nanoseconds: i64,
}

extern "C" {
    fn clock_gettime(clock: i32, time: *mut Time) -> i32;
}

/// The clock of the processor's time spent on this process (Linux), as the C host has it.
const CLOCK_OF_PROCESS: i32 = 2;

/// The processor's time in nanoseconds, so that what else the machine does is not counted. The standard library has
/// only the time on the wall.
fn now() -> u64 {
    let mut time = Time { seconds: 0, nanoseconds: 0 };
    // Safety: the call writes one Time, and keeps nothing.
    let status = unsafe { clock_gettime(CLOCK_OF_PROCESS, &mut time) };
    assert_eq!(status, 0, "no clock");
    time.seconds as u64 * 1_000_000_000 + time.nanoseconds as u64
}

struct Timer {
    door: Door,
    repeats: u64,
}

/// The shortest times in nanoseconds, and the middle one of the rounds' ratios.
struct Times {
    library: f64,
    reader: f64,
    ratio: f64,
}

/// How often each runs in a round.
const RUNS: u64 = 2;

impl Timer {
    /// Times both on one tape, in rounds, so that a machine whose speed changes is as fast for the one as for the
    /// other; they must agree on the answer.
    fn time(&mut self, timed: &Timed, tape: Vec<u8>) -> Result<(Times, u64), Box<dyn Error>> {
        let specification = Specification::new(timed.edition, timed.shorthand, timed.profile);
        let ask = Ask::Count { specification, tape };
        let (mut library, mut reader, mut number) = (f64::INFINITY, f64::INFINITY, 0);
        let mut ratios = Vec::new();
        for _ in 0..self.repeats {
            let served = self.door.ask(std::iter::once(&ask), RUNS)?.remove(0);
            let ours = served.nanoseconds as f64;
            let mut theirs = f64::INFINITY;
            for _ in 0..RUNS {
                let start = now();
                let answer = black_box(black_box(&ask).answer());
                theirs = theirs.min((now() - start) as f64);
                if answer != served.answer {
                    return Err(format!("library: {}, reader: {answer}", served.answer).into());
                }
            }
            (library, reader, number) = (library.min(ours), reader.min(theirs), served.answer.number);
            ratios.push(ours / theirs);
        }
        ratios.sort_by(f64::total_cmp);
        Ok((Times { library, reader, ratio: ratios[ratios.len() / 2] }, number))
    }

    /// A fault that only stage 3 sees ends the work there: in the first row when stages 1 and 2 have passed the tape,
    /// in the last row when stage 3 has too.
    fn stages(&mut self, timed: &Timed) -> Result<(), Box<dyn Error>> {
        println!("rows per second on {MOST_ROWS} rows, each stage by itself:");
        let sound = timed.tape(MOST_ROWS);
        let last = sound.len() - 1;
        let mut before = Times { library: 0.0, reader: 0.0, ratio: 0.0 };
        let faults = [("1 and 2, rows", Some((0, b')'))), ("3, control-outs", Some((last, b'('))), ("4, blocks", None)];
        for (name, fault) in faults {
            let mut rows = sound.clone();
            if let Some((place, character)) = fault {
                rows[place] = punched(character);
            }
            let (times, found) = self.time(timed, rows)?;
            if found != fault.map_or(0, |_| 7) {
                return Err(format!("stage {name} ended with {found}").into());
            }
            let line = format!(
                "  {name:<15} library {}  reader {}",
                speed(times.library - before.library),
                speed(times.reader - before.reader)
            );
            println!("{line}");
            before = times;
        }
        println!("  {:<15} library {}  reader {}", "all four", speed(before.library), speed(before.reader));
        println!(
            "ratio on {MOST_ROWS} rows: {:.2} of the shortest, {:.2} in the middle of the rounds",
            before.library / before.reader,
            before.ratio
        );
        Ok(())
    }

    fn growth(&mut self, timed: &Timed) -> Result<(), Box<dyn Error>> {
        println!("nanoseconds for a row as the tape grows:");
        for rows in [10_000, 100_000, MOST_ROWS] {
            let (times, _) = self.time(timed, timed.tape(rows))?;
            let each = |time: f64| time / rows as f64;
            println!(
                "  {rows:>9} rows   library {:>7.3}  reader {:>7.3}  ratio {:.2}",
                each(times.library),
                each(times.reader),
                times.ratio
            );
        }
        Ok(())
    }
}

/// Rows of the longest tape for each second, in millions.
fn speed(nanoseconds: f64) -> String {
    // a stage that shares the pass of the one before has no time of its own
    if nanoseconds * 20.0 < MOST_ROWS as f64 {
        format!("{:>8}    ", "none")
    } else {
        format!("{:>8.1} mio", MOST_ROWS as f64 * 1_000.0 / nanoseconds)
    }
}

impl Timed {
    /// A sound tape of `length` rows with mixed words, a remark now and then, and NUL up to its length.
    fn tape(&self, length: usize) -> Vec<u8> {
        let chance = &mut Chance::new(SEED);
        let mut text = String::from("%\r\n");
        loop {
            let before = text.len();
            (self.block)(chance, &mut text);
            // the last row is a NUL, which any stage's fault can take the place of
            if text.len() >= length {
                text.truncate(before);
                break;
            }
        }
        let mut rows: Vec<u8> = text.bytes().map(punched).collect();
        rows.resize(length, 0);
        rows
    }
}

fn opening(chance: &mut Chance, text: &mut String, digits: usize) {
    remark_and_skip(chance, text);
    sequence(chance, text, digits);
}

/// A remark now and then, and "/" or not.
fn remark_and_skip(chance: &mut Chance, text: &mut String) {
    if chance.happens(1, 40) {
        text.push_str("(SECOND CUT\n(AFTER TURNING)");
    }
    if chance.happens(1, 20) {
        text.push('/');
    }
}

fn sequence(chance: &mut Chance, text: &mut String, digits: usize) {
    let letter = if chance.happens(1, 50) { ':' } else { 'N' };
    let _ = write!(text, "{letter}{:0digits$}", chance.below(1_000));
}

fn end(chance: &mut Chance, text: &mut String) {
    text.push_str(if chance.happens(1, 4) { "\r\n" } else { "\n" });
}

fn tabbed_block(chance: &mut Chance, text: &mut String) {
    tabbed(chance, text, true);
}

fn bare_block(chance: &mut Chance, text: &mut String) {
    tabbed(chance, text, false);
}

fn tabbed(chance: &mut Chance, text: &mut String, addresses: bool) {
    opening(chance, text, 3);
    let words = 1 + chance.below(8);
    for letter in "GXYZFSTM".chars().take(words) {
        text.push('\t');
        if chance.happens(1, 4) {
            continue;
        }
        text.extend(addresses.then_some(letter));
        let _ = match letter {
            'X' | 'Y' | 'Z' => write!(text, "{}{:06}", sign(chance), chance.below(1_000_000)),
            'F' | 'S' => write!(text, "{}", code(chance, 3)),
            _ => write!(text, "{:02}", chance.below(100)),
        };
    }
    end(chance, text);
}

fn dropped_block(chance: &mut Chance, text: &mut String) {
    opening(chance, text, 4);
    dropped_words(chance, text, "GXYZIJFSTM");
    end(chance, text);
}

/// One block of eight has a number, and each has a G, so that none has nothing.
fn unnumbered_block(chance: &mut Chance, text: &mut String) {
    remark_and_skip(chance, text);
    if chance.happens(1, 8) {
        sequence(chance, text, 4);
    }
    let _ = write!(text, "G{:02}", chance.below(100));
    dropped_words(chance, text, "XYZIJFSTM");
    end(chance, text);
}

/// About half of the words of `letters`.
fn dropped_words(chance: &mut Chance, text: &mut String, letters: &str) {
    for letter in letters.chars() {
        if chance.happens(1, 2) {
            continue;
        }
        let places = 10usize.pow(1 + chance.below(6) as u32);
        let _ = match letter {
            'X' | 'Y' | 'Z' | 'I' | 'J' => write!(text, "{letter}{}{}", sign(chance), chance.below(places)),
            'F' | 'S' => write!(text, "{letter}{}", code(chance, 4)),
            _ => write!(text, "{letter}{:02}", chance.below(100)),
        };
    }
}

fn sign(chance: &mut Chance) -> char {
    chance.one_of(&['+', '-'])
}

/// A code whose second digit is not zero.
fn code(chance: &mut Chance, digits: u32) -> usize {
    let one = 10usize.pow(digits - 1);
    (1 + chance.below(9)) * one + one / 10 + chance.below(one - one / 10)
}
