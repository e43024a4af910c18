//! What the comparison needs: chance from a seed, tapes and records made and damaged, the pipe to
//! the C host, and the lines that ask the library.

pub mod chance;
pub mod corrected;
pub mod correcting;
pub mod damage;
pub mod door;
pub mod growing;
pub mod indexed;
pub mod inputs;
pub mod lines;
pub mod misplaced;
mod preferred;
mod profiles;
pub mod programs;
pub mod records;
pub mod saved;
pub mod saving;
pub mod splicing;
pub mod two_tapes;
mod unnumbered;
