//! By the program that lists a corrected tape: what it prints for each input and argument.

use super::listing::{compared, handed};
use super::{seen, seen_often, Order, Seen};
use second_opinion::corrected::{corrected, Corrected, Refused};
use second_opinion::corrections::Tape;
use second_opinion::trial::inputs::Listed;
use second_opinion::trial::two_tapes;
use std::error::Error;

pub fn compare(order: &Order) -> Result<bool, Box<dyn Error>> {
    let all = two_tapes::listings(order.seed, order.inputs);
    let tally = compared(order, &all, corrected)?;
    let mut held = Held::default();
    all.iter().for_each(|listed| held.take(listed));
    let Held { kept, altered, added, correction, master } = &held;
    println!(
        "corrected listings: {} compared, {} accepted, with {kept} entries of the master, {altered} altered and {added} added by the correction, \
         seen {} (of the correction {}, of the master {}), {} differences",
        tally.compared,
        tally.seen[0],
        seen(&tally.seen),
        seen(correction),
        seen(master),
        tally.differences
    );
    let enough = seen_often("corrected listings", &tally.seen, &[0, 1, 2, 22, 23], 5)
        & seen_often("of the correction", correction, OF_A_TAPE, 1)
        & seen_often("of the master", master, OF_A_TAPE, 1)
        & [kept, altered, added].iter().all(|&&entries| entries > 0);
    Ok(tally.agrees(order) && enough)
}

/// What either tape has to be refused with.
const OF_A_TAPE: &[usize] = &[4, 5, 6, 7, 8, 9, 10, 11, 14];

/// What the two tapes hold of the entries, and are refused with.
#[derive(Default)]
struct Held {
    /// the master's
    kept: usize,
    /// the correction's, in the place of the master's
    altered: usize,
    /// the correction's, behind the master's
    added: usize,
    correction: Seen,
    master: Seen,
}

impl Held {
    fn take(&mut self, listed: &Listed) {
        match Corrected::read(&listed.input, handed(listed)) {
            Ok(corrected) => {
                let (standing, added) = corrected.entries.split_at(corrected.master.len());
                let kept = standing.iter().filter(|entry| entry.tape == Tape::Master).count();
                self.kept += kept;
                self.altered += standing.len() - kept;
                self.added += added.len();
            }
            Err(Refused { refusal, tape: Some(tape) }) => {
                let seen = if tape == Tape::Correction { &mut self.correction } else { &mut self.master };
                seen[refusal.number as usize] += 1;
            }
            Err(_) => {}
        }
    }
}
