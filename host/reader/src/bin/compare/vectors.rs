//! Line by line: what the program `vectors` answers for records, tapes, shorthands, speeds, heads, indexes, images, corrections,
//! tapes to save, and glued and dressed tapes.

use super::{add, seen, seen_often, tell, worker_failed, Batch, Order, Seen, Turns};
use second_opinion::corrections::Tape;
use second_opinion::trial::correcting;
use second_opinion::trial::growing;
use second_opinion::trial::lines::{self, Posed};
use second_opinion::trial::saving;
use second_opinion::trial::splicing::{self, How};
use std::collections::BTreeMap;
use std::error::Error;
use std::io;
use std::sync::Mutex;

/// How many lines the program is started for, as an emulated one takes long to start.
const BATCH: usize = 10_000;
/// The letters of a kind of line, the numbers that must be seen among its answers, and how often each.
type Due = (&'static str, &'static [usize], u64);
/// What must be seen.
const LEAST: &[Due] = &[
    ("J", &[0, 1, 2, 3, 16, 17, 18, 19], 500),
    ("J", &[22, 23], 200),
    ("U", &[0, 1, 2, 3, 16, 17, 18], 100),
    ("V", &[0, 1, 2, 3, 16, 17, 18, 19], 100),
    ("W", &[0, 15], 100),
    ("P", &[0, 15], 100),
    ("F", &[0, 1, 2, 3], 100),
    ("G", &[0, 22, 23], 100),
    ("S", &[0, 13, 21], 100),
    ("C", &[0, 20, 21], 100),
    ("X", &[0, 18], 100),
    ("IB", &[0, 24], 40),
    ("IA", &[0, 16, 17, 19, 24], 40),
    ("IA", &[2, 3, 5, 14, 18, 22], 10),
    ("IO", &[0, 15], 40),
    ("IO", &[2, 3, 5, 14, 22], 10),
    ("IW", &[0, 15], 40),
    ("IP", &[0, 15], 40),
    ("IW", &[5, 7, 9, 11, 14], 10),
    ("IP", &[5, 7, 9, 11, 14], 10),
    ("IN", &[0, 25], 40),
    ("IL", &[0, 4, 19, 24], 4),
    ("CP", &[0, 25], 100),
    ("CE", &[0, 15], 100),
    ("CI", &[0, 15], 100),
    ("CP", &[1, 2, 3, 22, 23], 4),
    ("CE", &[1, 2, 3, 22, 23], 4),
    ("SV", &[0, 24], 100),
    ("SV", &[5, 6, 7, 8], 10),
    ("SV", &[1, 2, 3, 22, 23], 4),
];
/// The same of lines that say or answer stop or rapid.
const LEAST_NAMED: &[Due] = &[("J", &[0, 18], 100), ("W", &[0], 10)];
/// The same of records without number, with those 16 alone that are at 0.
const LEAST_UNNUMBERED: &[Due] = &[("J", &[0, 16], 200), ("J", &[17, 18, 19], 100), ("U", &[0, 16], 40), ("W", &[0], 20)];
/// The same of two tapes: what the one must be refused with, and the other.
const LEAST_REFUSED: &[Due] = &[("CP", &[5, 6, 7, 8, 9, 10, 11, 14], 4), ("CE", &[5, 6, 7, 8, 9, 10, 11, 14], 4)];
/// The same of tapes that were saved: those that lose nothing, and what pieces must be lost for.
const LEAST_LOST: &[Due] = &[("SV", &[0, 5, 6, 7, 9, 10, 11, 14], 40), ("SV", &[12, 13], 10)];
/// How often each way of making glued and dressed tapes must be seen.
const LEAST_SPLICED: &[(How, u64)] =
    &[(How::Glued, 100), (How::Dressed, 100), (How::GluedAndDressed, 100), (How::RefusedAndDressed, 40), (How::RemarkWithin, 40)];

pub fn compare(order: &Order) -> Result<bool, Box<dyn Error>> {
    let batches = batches(order.inputs);
    order.say_seeds(&batches);
    let turns = Turns::over(&batches);
    let tally = Mutex::new(Tally::default());
    order.at_once(|| {
        while let Some((at, make)) = turns.take() {
            let own = ask(order, &make(order.seed + at as u64))?;
            tally.lock().map_err(|_| worker_failed())?.add(&own);
        }
        Ok(())
    })?;
    Ok(tally.into_inner()?.report())
}

/// The batches, each made when its turn comes: records, and a part as many tapes, shorthands, profiles and numbers.
fn batches(records: usize) -> Vec<Batch<'static, Posed>> {
    let mut batches: Vec<Batch<Posed>> = vec![
        Box::new(|_| lines::edges()),
        Box::new(|_| growing::limits()),
        Box::new(move |seed| lines::numbers(seed, records / 5)),
    ];
    for (make, size) in [
        (lines::punchings as fn(u64, usize) -> Vec<Posed>, records),
        (lines::measurings, records / 5),
        (lines::tapes, records / 5),
        (lines::formats, records / 10),
        (lines::agreements, records / 10),
        (growing::images, records / 8),
        (growing::refused, records / 20),
        (correcting::corrections, records / 20),
        (correcting::refused, records / 20),
        (saving::tapes, records / 20),
        (saving::refused, records / 20),
        (splicing::tapes, records / 40),
    ] {
        for first in (0..size).step_by(BATCH) {
            batches.push(Box::new(move |seed| make(seed, BATCH.min(size - first))));
        }
    }
    batches
}

/// Asks a batch of lines and compares what comes back.
fn ask(order: &Order, batch: &[Posed]) -> io::Result<Tally> {
    let texts: Vec<Vec<u8>> = batch.iter().map(|posed| posed.line.text()).collect();
    let output = order.run(None, &texts.iter().flat_map(|text| [text, &b"\n"[..]].concat()).collect::<Vec<u8>>())?;
    let written: Vec<&[u8]> = output.stdout.split(|&byte| byte == b'\n').collect();
    let mut tally = Tally::default();
    // nothing stands behind the last line's end
    if !output.status.success() || written.len() != texts.len() + 1 {
        tally.differences += 1;
        println!("{} lines were asked, {} came back, {}", texts.len(), written.len() - 1, output.status);
    }
    for ((posed, text), written) in batch.iter().zip(&texts).zip(written) {
        tally.take(posed, text, written);
    }
    Ok(tally)
}

/// Whether a speed in that line is stop or rapid.
fn names_a_speed(line: &[u8]) -> bool {
    ["stop", "rapid"].iter().any(|name| line.windows(name.len()).any(|part| part == name.as_bytes()))
}

/// What was seen of the answers, by the letters of the lines.
#[derive(Default)]
struct Tally {
    seen: BTreeMap<String, Seen>,
    /// those with stop or rapid in the line or its answer
    named: BTreeMap<String, Seen>,
    /// those of records without number, but for 16 at a word
    unnumbered: BTreeMap<String, Seen>,
    /// those that are refused for the correction of two tapes
    correction: BTreeMap<String, Seen>,
    /// those that are refused for the master
    master: BTreeMap<String, Seen>,
    /// of saved tapes those that lose nothing, by 0, and the pieces that the others lose, by what these are refused with
    lost: BTreeMap<String, Seen>,
    /// those of glued and dressed tapes
    spliced: BTreeMap<How, u64>,
    unasked: u64,
    differences: u64,
}

impl Tally {
    fn take(&mut self, posed: &Posed, text: &[u8], written: &[u8]) {
        let reply = posed.reply(text);
        let reader = lines::answered(text, reply.as_ref());
        match &reply {
            Some(reply) => {
                let number = reply.number as usize;
                let kind = || lines::letters(text);
                self.seen.entry(kind()).or_default()[number] += 1;
                self.named.entry(kind()).or_default()[number] += u64::from(names_a_speed(&reader));
                let unnumbered = reply.unnumbered && (number != 16 || reply.place == 0);
                self.unnumbered.entry(kind()).or_default()[number] += u64::from(unnumbered);
                self.correction.entry(kind()).or_default()[number] += u64::from(reply.refused == Some(Tape::Correction));
                self.master.entry(kind()).or_default()[number] += u64::from(reply.refused == Some(Tape::Master));
                if let Some(losses) = &reply.losses {
                    let lost = self.lost.entry(kind()).or_default();
                    lost[0] += u64::from(losses.is_empty());
                    losses.iter().for_each(|&number| lost[number as usize] += 1);
                }
                if let Some(verdict) = &reply.spliced {
                    *self.spliced.entry(verdict.how).or_default() += 1;
                }
            }
            None => self.unasked += 1,
        }
        let as_made = posed.known.is_none_or(|known| reply.as_ref().is_some_and(|reply| known == (reply.number, reply.place)));
        let verdict = reply.as_ref().and_then(|reply| reply.spliced.as_ref());
        let as_made = as_made && verdict.is_none_or(|verdict| verdict.as_made);
        if written == reader && as_made {
            return;
        }
        self.differences += 1;
        let answer = |line: &[u8]| line.strip_prefix(text).unwrap_or(line).escape_ascii().to_string();
        tell(
            format_args!("{}\nlibrary: {}\nreader:  {}", text.escape_ascii(), answer(written), answer(&reader)),
            verdict.map(|verdict| verdict.made.clone()).or(posed.known.map(|(number, place)| format!(" -> {number} {place}"))),
        );
    }

    fn add(&mut self, other: &Tally) {
        let Tally { seen, named, unnumbered, correction, master, lost, .. } = self;
        for (own, others) in [
            (seen, &other.seen),
            (named, &other.named),
            (unnumbered, &other.unnumbered),
            (correction, &other.correction),
            (master, &other.master),
            (lost, &other.lost),
        ] {
            others.iter().for_each(|(kind, seen)| add(own.entry(kind.clone()).or_default(), seen));
        }
        other.spliced.iter().for_each(|(how, count)| *self.spliced.entry(*how).or_default() += count);
        self.unasked += other.unasked;
        self.differences += other.differences;
    }

    fn report(&self) -> bool {
        let mut well = self.differences == 0;
        let mut total = self.unasked;
        for (kind, counts) in &self.seen {
            let asked: u64 = counts.iter().sum();
            println!("{kind}: {asked}, seen {}", seen(counts));
            total += asked;
        }
        for (kind, lost) in &self.lost {
            let [unaltered, altered] = [lost[0], self.seen[kind][0] - lost[0]];
            let mut pieces = *lost;
            pieces[0] = 0;
            println!("{kind}: {unaltered} unaltered, {altered} with a loss, pieces lost for {}", seen(&pieces));
        }
        let spliced: Vec<String> = self.spliced.iter().map(|(how, count)| format!("{count} {how}")).collect();
        println!("B and W of tapes {}", spliced.join(", "));
        for (how, least) in LEAST_SPLICED {
            if self.spliced.get(how).is_none_or(|count| count < least) {
                println!("tapes {how}: seen fewer than {least} times");
                well = false;
            }
        }
        for (which, all, due) in [
            ("", &self.seen, LEAST),
            (" with stop or rapid", &self.named, LEAST_NAMED),
            (" without number", &self.unnumbered, LEAST_UNNUMBERED),
            (" with a refused correction", &self.correction, LEAST_REFUSED),
            (" with a refused master", &self.master, LEAST_REFUSED),
            (" by what is lost", &self.lost, LEAST_LOST),
        ] {
            for &(kind, numbers, least) in due {
                let counts = all.get(kind).copied().unwrap_or_default();
                well &= seen_often(&format!("{kind}{which}"), &counts, numbers, least);
            }
        }
        println!("{total} lines, {} differences", self.differences);
        well
    }
}
