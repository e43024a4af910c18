//! The pipe to the C host: requests and answers in frames, as host/door.c has them.

use super::inputs::{Answer, Ask};
use crate::specification::Specification;
use std::io::{self, BufReader, Read, Write};
use std::process::{Child, ChildStdin, ChildStdout, Command, Stdio};
use std::thread;

/// The C host, serving.
pub struct Door {
    child: Child,
    requests: ChildStdin,
    answers: BufReader<ChildStdout>,
}

/// An answer of the C host, with the time where it was asked for.
#[derive(Clone, Debug, PartialEq, Eq)]
pub struct Served {
    /// what the function answered
    pub answer: Answer,
    /// the shortest of the repeats
    pub nanoseconds: u64,
}

impl Door {
    /// Starts `command`, to which `serve` is added.
    pub fn open(command: &[String]) -> io::Result<Door> {
        let (program, words) = command.split_first().ok_or(io::Error::other("no C host was named"))?;
        let mut child = Command::new(program).args(words).arg("serve").stdin(Stdio::piped()).stdout(Stdio::piped()).spawn()?;
        let requests = child.stdin.take().ok_or(io::ErrorKind::BrokenPipe)?;
        let answers = BufReader::new(child.stdout.take().ok_or(io::ErrorKind::BrokenPipe)?);
        Ok(Door { child, requests, answers })
    }

    /// Asks all of `asks` and waits for the answers; each count is timed over `repeats` runs, if any.
    pub fn ask<'a>(&mut self, asks: impl Iterator<Item = &'a Ask> + Clone, repeats: u64) -> io::Result<Vec<Served>> {
        let mut frames = Vec::new();
        asks.clone().for_each(|ask| frame(&mut frames, ask, repeats));
        let Door { requests, answers, .. } = self;
        // the requests are written beside the reading, or both pipes could be full
        thread::scope(|scope| {
            let writer = scope.spawn(move || requests.write_all(&frames).and_then(|()| requests.flush()));
            let served = asks.map(|ask| served(answers, ask)).collect();
            writer.join().map_err(|_| io::Error::other("the writer failed"))??;
            served
        })
    }

    /// Ends the C host and says whether it ended well.
    pub fn close(self) -> io::Result<bool> {
        let Door { mut child, requests, .. } = self;
        drop(requests);
        Ok(child.wait()?.success())
    }
}

fn frame(frames: &mut Vec<u8>, ask: &Ask, repeats: u64) {
    let mut put = |numbers: [u64; 6]| numbers.iter().for_each(|number| frames.extend(number.to_le_bytes()));
    match ask {
        Ask::Count { specification: Specification { edition, shorthand, profile }, tape } => {
            let [shorthand_length, profile_length, tape_length] = [shorthand, profile, tape].map(|slice| slice.len() as u64);
            put([1, u64::from(*edition), shorthand_length, profile_length, tape_length, repeats]);
            [shorthand, profile, tape].iter().for_each(|slice| frames.extend_from_slice(slice));
        }
        Ask::Speed { digits, code } => put([2, u64::from(*digits), *code, 0, 0, 0]),
        Ask::Code { digits, kind, units } => put([3, u64::from(*digits), u64::from(*kind), *units, 0, 0]),
        Ask::Head { length, first } => put([4, *length as u64, u64::from(*first), 0, 0, 0]),
    }
}

fn served(answers: &mut impl Read, ask: &Ask) -> io::Result<Served> {
    let mut number = || {
        let mut bytes = [0; 8];
        answers.read_exact(&mut bytes).map(|()| u64::from_le_bytes(bytes))
    };
    let [refusal, place, kind, value, nanoseconds] = [number()?, number()?, number()?, number()?, number()?];
    let mut buffer = Vec::new();
    if let Ask::Head { length, .. } = ask {
        buffer.resize(*length, 0);
        answers.read_exact(&mut buffer)?;
    }
    Ok(Served { answer: Answer { number: refusal, place, kind, value, buffer }, nanoseconds })
}
