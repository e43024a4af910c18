//! The specification of a format, as it is handed over.

use crate::profile::Profile;
use crate::shorthand::{self, Edition, Format};
use crate::Refusal;

/// What a tape or a record is judged by, sound or not.
#[derive(Clone, Debug, PartialEq, Eq)]
pub struct Specification {
    /// the edition's number
    pub edition: u32,
    /// the detailed shorthand
    pub shorthand: Vec<u8>,
    /// the general one; no bytes are no profile
    pub profile: Vec<u8>,
}

impl Specification {
    /// The specification of these three.
    pub fn new(edition: u32, shorthand: impl AsRef<[u8]>, profile: impl AsRef<[u8]>) -> Self {
        Specification { edition, shorthand: shorthand.as_ref().to_vec(), profile: profile.as_ref().to_vec() }
    }

    /// Its format, or the first of refusals 1, 2 or 3, 22 and 23.
    pub fn format(&self) -> Result<Format, Refusal> {
        let format = shorthand::parse(self.edition, &self.shorthand)?;
        match Edition::numbered(self.edition) {
            Some(edition) if !self.profile.is_empty() => Profile::parse(edition, &self.profile)?.format(format),
            _ => Ok(format),
        }
    }
}
