//! A second opinion on Crumbtrellis: a reader and punch of eight-track NC tapes written from the rules alone.
//!
//! It shares no code with the proved library. The module `trial` holds what the comparison needs: the
//! generators of tapes and records, the damage done to them, the pipe to the C host, and the lines that ask the library.

#![forbid(unsafe_code)]
#![warn(missing_docs)]

pub mod corrected;
pub mod corrections;
pub mod index;
pub mod listing;
pub mod profile;
pub mod punching;
pub mod reading;
pub mod rows;
pub mod salvage;
pub mod shorthand;
pub mod specification;
pub mod speeds;
pub mod splices;
pub mod trial;

use specification::Specification;
use std::fmt;

/// A refusal by its number in the rules, and its place.
#[derive(Clone, Copy, Debug, PartialEq, Eq)]
pub struct Refusal {
    /// 1 to 25
    pub number: u32,
    /// a row, a byte of the shorthand or profile, or what the table of refusals says
    pub place: u64,
}

impl Refusal {
    /// The refusal `number` at `place`.
    pub fn new(number: u32, place: usize) -> Self {
        Refusal { number, place: place as u64 }
    }
}

impl fmt::Display for Refusal {
    fn fmt(&self, to: &mut fmt::Formatter<'_>) -> fmt::Result {
        write!(to, "refused {} {}", self.number, self.place)
    }
}

/// How many blocks stand on `tape`, judged by `specification`.
pub fn count_blocks(specification: &Specification, tape: &[u8]) -> Result<u64, Refusal> {
    let mut count = reading::Count::default();
    reading::read(&specification.format()?, tape, &mut count)?;
    Ok(count.blocks)
}

/// How many rows the block of `record` has by `specification`.
pub fn measure_block(specification: &Specification, record: &punching::Record) -> Result<u64, Refusal> {
    punching::measure_block(&specification.format()?, record)
}

/// Punches the block of `record` into `buffer` by `specification`, and answers how many rows it has.
pub fn punch_block(specification: &Specification, record: &punching::Record, buffer: &mut [u8]) -> Result<u64, Refusal> {
    punching::punch_block(&specification.format()?, record, buffer)
}
