//! Through the C host: block counts, coded speeds and the head.

use super::{add, seen, seen_often, tell, worker_failed, Batch, Order, Seen, Turns};
use second_opinion::reading::{self, Opening, Value, Visitor};
use second_opinion::shorthand::{Format, Kind};
use second_opinion::trial::door::Door;
use second_opinion::trial::inputs::{self, Answer, Ask, Input};
use std::error::Error;
use std::io;
use std::sync::Mutex;

/// How many inputs one seed settles.
const BATCH: usize = 500;
/// How many tapes at and over the row limit are tried, and how many of them one seed settles.
const LONG: usize = 64;
const LONG_BATCH: usize = 8;
/// How often each refusal of a tape, shorthand or profile must be seen, and which answers to a tape without addresses, to one
/// with speeds of two digits, to one with a block without number, and to a speed, code or head.
const LEAST: u64 = 50;
const REFUSALS: &[usize] = &[1, 2, 3, 4, 5, 6, 7, 8, 9, 10, 11, 12, 13, 14, 22, 23];
const WITHOUT_ADDRESSES: &[usize] = &[0, 10, 11, 12, 13, 14];
const TWO_DIGITS: &[usize] = &[0, 10, 11, 12, 14];
const UNNUMBERED: &[usize] = &[0, 9, 10, 11, 12, 14];
const NUMBERS: &[usize] = &[0, 13, 19, 20, 21];

pub fn compare(order: &Order) -> Result<bool, Box<dyn Error>> {
    let batches = batches(order.inputs);
    order.say_seeds(&batches);
    let turns = Turns::over(&batches);
    let tally = Mutex::new(Tally::default());
    let well = order.at_once(|| work(order, &turns, &tally))?.into_iter().all(|well| well);
    if !well {
        println!("the C host ended badly");
    }
    let tally = tally.into_inner()?;
    Ok(tally.report() && well)
}

/// The batches, each made when its turn comes: tapes, long tapes, numbers, and what is tried exhaustively.
fn batches(inputs: usize) -> Vec<Batch<'static, Input>> {
    let mut batches: Vec<Batch<Input>> = Vec::new();
    for first in (0..inputs).step_by(BATCH) {
        batches.push(Box::new(move |seed| inputs::tapes(seed, BATCH.min(inputs - first))));
    }
    for _ in 0..LONG / LONG_BATCH {
        batches.push(Box::new(|seed| inputs::long_tapes(seed, LONG_BATCH)));
    }
    batches.push(Box::new(move |seed| inputs::numbers(seed, inputs / 5)));
    for (bytes, starts) in inputs::SHORTHAND_STARTS {
        for start in *starts {
            batches.push(Box::new(|_| inputs::short_shorthands(bytes, start)));
        }
    }
    for (edition, shorthand, starts) in inputs::PROFILE_STARTS {
        for start in *starts {
            batches.push(Box::new(|_| inputs::short_profiles(*edition, shorthand, start)));
        }
    }
    for (characters, starts) in inputs::TAPE_STARTS {
        for start in *starts {
            batches.push(Box::new(|_| inputs::short_tapes(characters, start)));
        }
    }
    batches
}

/// Opens a door and asks batch after batch; says whether the C host ended well.
fn work(order: &Order, turns: &Turns<Batch<Input>>, tally: &Mutex<Tally>) -> io::Result<bool> {
    let mut door = Door::open(&order.command)?;
    while let Some((at, make)) = turns.take() {
        let batch = make(order.seed + at as u64);
        let served = door.ask(batch.iter().map(|input| &input.ask), 0)?;
        let mut own = Tally::default();
        for (input, served) in batch.iter().zip(served) {
            own.take(input, &served.answer);
        }
        tally.lock().map_err(|_| worker_failed())?.add(&own);
    }
    door.close()
}

fn has_two_digits(format: &Format) -> bool {
    format.items.iter().any(|item| item.kind == Kind::Speed && item.most == 2)
}

/// Which blocks without number there are on a tape.
#[derive(Default)]
struct Unnumbered {
    /// how many ended
    read: u64,
    /// whether the tape is in one
    within: bool,
}

impl Visitor for Unnumbered {
    fn block(&mut self, opening: Opening) {
        self.within = !opening.numbered;
    }
    fn word(&mut self, _: u8, _: Value) {}
    fn end(&mut self, _: usize) {
        self.read += u64::from(self.within);
        self.within = false;
    }
}

/// Whether a block without number stands on a sound tape, or is the one that a tape is refused for.
fn turns_on_unnumbered(format: &Format, tape: &[u8]) -> bool {
    let mut seen = Unnumbered::default();
    match reading::read(format, tape, &mut seen) {
        Ok(()) => seen.read > 0,
        Err(_) => seen.within,
    }
}

/// What was seen through the C host.
#[derive(Default)]
struct Tally {
    tapes: Seen,
    /// those of the tapes whose words have no addresses
    without_addresses: Seen,
    /// those that may have speeds of two digits
    two_digits: Seen,
    /// those with a block without number, or refused for one
    unnumbered: Seen,
    numbers: Seen,
    odd_holes: u64,
    differences: u64,
}

impl Tally {
    fn take(&mut self, input: &Input, door: &Answer) {
        let reader = input.ask.answer();
        let number = reader.number as usize;
        match &input.ask {
            Ask::Count { specification, tape } => {
                self.tapes[number] += 1;
                if let Ok(format) = specification.format() {
                    self.without_addresses[number] += u64::from(!format.layout.has_addresses());
                    self.two_digits[number] += u64::from(has_two_digits(&format));
                    self.unnumbered[number] += u64::from(turns_on_unnumbered(&format, tape));
                }
            }
            _ => self.numbers[number] += 1,
        }
        let known = input.known.as_ref();
        self.odd_holes += u64::from(known.is_some_and(|known| known.number == 5));
        if *door == reader && known.is_none_or(|known| *known == reader) {
            return;
        }
        self.differences += 1;
        tell(format_args!("{}\nlibrary: {door}\nreader:  {reader}", input.ask), known);
    }

    fn add(&mut self, other: &Tally) {
        add(&mut self.tapes, &other.tapes);
        add(&mut self.without_addresses, &other.without_addresses);
        add(&mut self.two_digits, &other.two_digits);
        add(&mut self.unnumbered, &other.unnumbered);
        add(&mut self.numbers, &other.numbers);
        self.odd_holes += other.odd_holes;
        self.differences += other.differences;
    }

    fn report(&self) -> bool {
        let total = |seen: &Seen| seen.iter().sum::<u64>();
        let kinds = [
            ("tapes, shorthands and profiles", &self.tapes, REFUSALS),
            ("of them tapes without addresses", &self.without_addresses, WITHOUT_ADDRESSES),
            ("of them tapes with two-digit speeds", &self.two_digits, TWO_DIGITS),
            ("of them tapes with blocks without number", &self.unnumbered, UNNUMBERED),
            ("speeds, codes and heads", &self.numbers, NUMBERS),
        ];
        let mut well = self.differences == 0;
        for (kind, counts, due) in kinds {
            println!("{kind}: {}, seen {}", total(counts), seen(counts));
            well &= seen_often(kind, counts, due, LEAST);
        }
        println!("odd rows on a sound tape: {}, each 5 at the first of them", self.odd_holes);
        println!("{} differences", self.differences);
        well
    }
}
