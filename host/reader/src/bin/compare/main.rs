//! Compares the proved library with the second reader: through the C host, by the programs that list, or line by line.

mod corrected;
mod door;
mod listing;
mod vectors;

use std::error::Error;
use std::ffi::OsStr;
use std::fmt;
use std::io::{self, Write};
use std::process::{Command, ExitCode, Output, Stdio};
use std::sync::atomic::{AtomicUsize, Ordering};
use std::thread;

const USAGE: &str = "usage: compare door|listing|corrected|vectors [--inputs N] [--seed N] [--jobs N] -- COMMAND...";
/// How many differences are printed.
const PRINTED: usize = 5;

fn main() -> ExitCode {
    match Order::given().and_then(|order| (order.way.compare)(&order)) {
        Ok(true) => ExitCode::SUCCESS,
        Ok(false) => ExitCode::FAILURE,
        Err(error) => {
            eprintln!("compare: {error}");
            ExitCode::from(2)
        }
    }
}

/// How often each number was seen, refusals 1 to 25 and success.
type Seen = [u64; 26];

/// Makes the inputs of one batch from its seed.
type Batch<'a, T> = Box<dyn Fn(u64) -> Vec<T> + Sync + 'a>;

/// A way to ask the library.
struct Way {
    name: &'static str,
    /// how many inputs are compared unless they are said
    inputs: usize,
    /// whether all is as it has to be
    compare: fn(&Order) -> Result<bool, Box<dyn Error>>,
}

const WAYS: &[Way] = &[
    Way { name: "door", inputs: 100_000, compare: door::compare },
    Way { name: "listing", inputs: 3_000, compare: listing::compare },
    Way { name: "corrected", inputs: 3_000, compare: corrected::compare },
    Way { name: "vectors", inputs: 100_000, compare: vectors::compare },
];

struct Order {
    way: &'static Way,
    inputs: usize,
    seed: u64,
    jobs: usize,
    command: Vec<String>,
}

impl Order {
    fn given() -> Result<Order, Box<dyn Error>> {
        let mut words = std::env::args().skip(1);
        let name = words.next();
        let way = WAYS.iter().find(|way| name.as_deref() == Some(way.name)).ok_or(USAGE)?;
        let mut order = Order { way, inputs: way.inputs, seed: 1057, jobs: 2, command: Vec::new() };
        while let Some(word) = words.next() {
            let mut number = || words.next().ok_or(USAGE);
            match word.as_str() {
                "--inputs" => order.inputs = number()?.parse()?,
                "--seed" => order.seed = number()?.parse()?,
                "--jobs" => order.jobs = number()?.parse::<usize>()?.max(1),
                "--" => order.command = words.by_ref().collect(),
                _ => return Err(USAGE.into()),
            }
        }
        if order.command.is_empty() {
            return Err(USAGE.into());
        }
        Ok(order)
    }

    /// Says which seeds settle the inputs of `batches`.
    fn say_seeds<T>(&self, batches: &[Batch<T>]) {
        println!("seeds {} to {}, one for each batch", self.seed, self.seed + batches.len() as u64 - 1);
    }

    /// Does `work` in each of the jobs at the same time, and hands back how each ended.
    fn at_once<T: Send>(&self, work: impl Fn() -> io::Result<T> + Sync) -> io::Result<Vec<T>> {
        thread::scope(|scope| {
            let workers: Vec<_> = (0..self.jobs).map(|_| scope.spawn(&work)).collect();
            workers.into_iter().map(|worker| worker.join().unwrap_or_else(|_| Err(worker_failed()))).collect()
        })
    }

    /// Runs the command with one more argument, if any, and `input` on its standard input.
    fn run(&self, argument: Option<&OsStr>, input: &[u8]) -> io::Result<Output> {
        let mut command = Command::new(&self.command[0]);
        command.args(&self.command[1..]).args(argument);
        let mut child = command.stdin(Stdio::piped()).stdout(Stdio::piped()).spawn()?;
        let stdin = child.stdin.take();
        // the input is written beside the reading, or both pipes could be full
        thread::scope(|scope| {
            scope.spawn(move || {
                // a program that has read enough may close its end
                let _ = stdin.map(|mut stdin| stdin.write_all(input));
            });
            child.wait_with_output()
        })
    }
}

fn worker_failed() -> io::Error {
    io::Error::other("a worker failed")
}

/// Hands out what is to be done, one after another, to whoever asks next.
struct Turns<'a, T> {
    all: &'a [T],
    next: AtomicUsize,
}

impl<'a, T> Turns<'a, T> {
    fn over(all: &'a [T]) -> Self {
        Turns { all, next: AtomicUsize::new(0) }
    }

    /// The next one, with its number from 0.
    fn take(&self) -> Option<(usize, &'a T)> {
        let at = self.next.fetch_add(1, Ordering::Relaxed);
        self.all.get(at).map(|one| (at, one))
    }
}

/// Prints a difference, and what is known from the making; no more of them than are worth reading.
fn tell(difference: fmt::Arguments, making: Option<impl fmt::Display>) {
    static TOLD: AtomicUsize = AtomicUsize::new(0);
    if TOLD.fetch_add(1, Ordering::Relaxed) < PRINTED {
        let making = making.map_or(String::new(), |making| format!("\nmaking:  {making}"));
        println!("DIFFERENCE\n{difference}{making}");
    }
}

/// Each number with how often it was seen.
fn seen(counts: &Seen) -> String {
    let each = counts.iter().enumerate().filter(|(_, &count)| count > 0);
    each.map(|(number, count)| format!("{number}:{count}")).collect::<Vec<_>>().join(" ")
}

/// Adds up how often each number was seen.
fn add(counts: &mut Seen, more: &Seen) {
    counts.iter_mut().zip(more).for_each(|(count, more)| *count += more);
}

/// Whether each of `numbers` was seen often enough; says which were not.
fn seen_often(what: &str, counts: &Seen, numbers: &[usize], least: u64) -> bool {
    let rare: Vec<&usize> = numbers.iter().filter(|&&number| counts[number] < least).collect();
    if !rare.is_empty() {
        println!("{what}: seen fewer than {least} times: {rare:?}");
    }
    rare.is_empty()
}
