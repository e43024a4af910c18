//! By the listing program: what it prints for each input and argument. Whatever else lists is compared in the same way.

use super::{seen, tell, worker_failed, Order, Seen, Turns};
use second_opinion::listing::listing;
use second_opinion::trial::inputs::{self, Listed};
use std::error::Error;
use std::ffi::OsStr;
use std::os::unix::ffi::OsStrExt;
use std::sync::Mutex;

pub fn compare(order: &Order) -> Result<bool, Box<dyn Error>> {
    let tally = compared(order, &inputs::listings(order.seed, order.inputs), listing)?;
    let Tally { compared, named, unnumbered, differences, .. } = tally;
    println!(
        "listings: {compared} compared, {named} with stop or rapid, {unnumbered} with a block without number, seen {}, {differences} differences",
        seen(&tally.seen)
    );
    Ok(tally.agrees(order))
}

/// The whole output for an input and a profile, by the second reader.
pub type Reader = fn(&[u8], &[u8]) -> String;

/// Runs the program on each of `all`.
pub fn compared(order: &Order, all: &[Listed], reader: Reader) -> Result<Tally, Box<dyn Error>> {
    println!("seed {}", order.seed);
    let turns = Turns::over(all);
    let tally = Mutex::new(Tally::default());
    order.at_once(|| {
        while let Some((_, listed)) = turns.take() {
            let due = reader(&listed.input, handed(listed));
            let found = order.run(listed.profile.as_deref().map(OsStr::from_bytes), &listed.input)?.stdout;
            tally.lock().map_err(|_| worker_failed())?.take(listed, &found, &due);
        }
        Ok(())
    })?;
    Ok(tally.into_inner()?)
}

/// The profile; no bytes where there is no argument.
pub fn handed(listed: &Listed) -> &[u8] {
    listed.profile.as_deref().unwrap_or(b"")
}

/// What was seen of a program that lists.
#[derive(Default)]
pub struct Tally {
    pub compared: u64,
    /// those that show stop or rapid
    named: u64,
    /// those that show a block without number
    unnumbered: u64,
    pub seen: Seen,
    pub differences: u64,
}

impl Tally {
    /// Whether all that was to be compared was, without a difference.
    pub fn agrees(&self, order: &Order) -> bool {
        self.differences == 0 && self.compared == order.inputs as u64
    }

    fn take(&mut self, Listed { input, profile, known }: &Listed, found: &[u8], reader: &str) {
        self.compared += 1;
        self.named += u64::from(reader.contains("stop") || reader.contains("rapid"));
        self.unnumbered += u64::from(reader.lines().any(|line| line.starts_with("N - ")));
        let number = reader.strip_prefix("refused ").and_then(|rest| rest.split(' ').next()?.parse().ok());
        self.seen[number.unwrap_or(0)] += 1;
        if found == reader.as_bytes() && known.as_ref().is_none_or(|known| *known == reader) {
            return;
        }
        self.differences += 1;
        tell(
            format_args!(
                "argument {:?}, input of {} bytes: {}\ninput in hex: {}\nprogram: {}\nreader:  {}",
                profile.as_deref().map(OsStr::from_bytes),
                input.len(),
                inputs::readable(input),
                inputs::hex(input),
                found.escape_ascii(),
                reader.escape_debug()
            ),
            known.as_ref().map(|known| known.escape_debug()),
        );
    }
}
