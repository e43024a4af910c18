//! The corrected listing: what the program `corrected` prints for the two tapes on its standard input.

use crate::corrections::{self, Entry, Tape};
use crate::listing::{blocks_on, header, text};
use crate::reading::Block;
use crate::specification::Specification;
use crate::Refusal;

/// The whole output for `input` on the standard input, and `profile` as the first argument; no bytes where there is none.
pub fn corrected(input: &[u8], profile: &[u8]) -> String {
    match Corrected::read(input, profile) {
        Ok(corrected) => corrected.text(),
        Err(refused) => format!("{}\n", refused.refusal),
    }
}

/// Two tapes, and their corrected listing.
pub struct Corrected {
    digits: u32,
    correction: Vec<Block>,
    /// the blocks of the master
    pub master: Vec<Block>,
    /// the entries of the listing
    pub entries: Vec<Entry>,
}

/// Why nothing is listed.
pub struct Refused {
    /// what is printed
    pub refusal: Refusal,
    /// the tape that it speaks of, if it speaks of one
    pub tape: Option<Tape>,
}

impl From<Refusal> for Refused {
    fn from(refusal: Refusal) -> Self {
        Refused { refusal, tape: None }
    }
}

impl Corrected {
    /// What `input` and `profile` are about.
    pub fn read(input: &[u8], profile: &[u8]) -> Result<Self, Refused> {
        let handed = Handed::in_input(input).ok_or(Refusal::new(1, 0))?;
        let format = Specification::new(handed.edition, handed.shorthand, profile).format()?;
        let blocks = |tape, rows| blocks_on(&format, rows).map_err(|refusal| Refused { refusal, tape: Some(tape) });
        let correction = blocks(Tape::Correction, handed.correction)?;
        let master = blocks(Tape::Master, handed.master)?;
        let numbers = |blocks: &[Block]| -> Vec<Option<u64>> { blocks.iter().map(|block| block.opening.number()).collect() };
        let entries = corrections::listing(&numbers(&correction), &numbers(&master));
        Ok(Corrected { digits: format.sequence, correction, master, entries })
    }

    fn text(&self) -> String {
        let block = |entry: &Entry| match entry.tape {
            Tape::Correction => &self.correction[entry.block],
            Tape::Master => &self.master[entry.block],
        };
        text(self.digits, &self.entries.iter().map(block).collect::<Vec<&Block>>())
    }
}

/// The parts of an input.
struct Handed<'i> {
    edition: u32,
    shorthand: &'i [u8],
    correction: &'i [u8],
    master: &'i [u8],
}

impl<'i> Handed<'i> {
    /// None where the header is at fault, or its counts are not those of the rows behind it.
    fn in_input(input: &'i [u8]) -> Option<Self> {
        let (edition, behind, rows) = header(input)?;
        let mut parts = behind.splitn(3, |&byte| byte == b' ');
        let shorthand = parts.next()?;
        let [correction, master] = [count(parts.next()?)?, count(parts.next()?)?];
        if correction.checked_add(master)? != rows.len() {
            return None;
        }
        let (correction, master) = rows.split_at(correction);
        Some(Handed { edition, shorthand, correction, master })
    }
}

/// Digits and nothing else as a number; none where it is more than any input has rows.
fn count(digits: &[u8]) -> Option<usize> {
    if digits.is_empty() {
        return None;
    }
    digits.iter().try_fold(0, |count: usize, &digit| {
        let value = char::from(digit).to_digit(10)?;
        count.checked_mul(10)?.checked_add(value as usize)
    })
}

#[cfg(test)]
mod tests {
    use super::*;
    use crate::listing::MOST_ROWS;
    use crate::rows::punched;
    use std::path::Path;

    const PLAIN: &str = "2539 N3G2*";

    fn rows(text: &str) -> Vec<u8> {
        text.bytes().map(punched).collect()
    }

    /// The input with that header and those rows, but for LF.
    fn input(header: &str, correction: &[u8], master: &[u8]) -> Vec<u8> {
        [header.as_bytes(), b"\n", correction, master].concat()
    }

    /// The output where the counts are right.
    fn counted(beginning: &str, correction: &[u8], master: &[u8], profile: &str) -> String {
        let header = format!("{beginning} {} {}", correction.len(), master.len());
        corrected(&input(&header, correction, master), profile.as_bytes())
    }

    fn list(beginning: &str, correction: &str, master: &str) -> String {
        counted(beginning, &rows(correction), &rows(master), "")
    }

    #[test]
    fn an_example() {
        let master = "%\nN001\tG01\tX+012500\tF615\n/N002\t\tX-000250\n";
        let correction = "%\nN002\tG01\tX-000300\nN003\t\t\t\tM30\n";
        let due = "N 001 - G1 X12500 F1500000000\nN 002 - G1 X-300\nN 003 - M30\nblocks 3\n";
        assert_eq!(list("1057 N3.G2.X+42.F3.M2*", correction, master), due);
    }

    #[test]
    fn listings() {
        let list = |correction, master| list(PLAIN, correction, master);
        // the first of a number replaces the first; a later one on the master stays
        let due = "N 001 - G3\nN - - G2\nN 001 -\nblocks 3\n";
        assert_eq!(list("%\nN001G03\nN001G04\nG09\n", "%\n/N001\nG02\nN001\n"), due);
        // what the master has not comes behind it, as the correction has it
        assert_eq!(list("%\n:007\n/N005G01\nN007\n", "%\nN006\n"), "N 006 -\n: 007 -\nN 005 / G1\nblocks 3\n");
        assert_eq!(list("%\nG01\nN000\n", "%\nG02\n"), "N - - G2\nN 000 -\nblocks 2\n");
        assert_eq!(list("%\nG01\n", "%\n"), "blocks 0\n");
        assert_eq!(list("%\n", "%\nN001\nN001\n"), "N 001 -\nN 001 -\nblocks 2\n");
    }

    /// The sample beside this package, and the program's own.
    #[test]
    fn the_samples() {
        let folder = Path::new(env!("CARGO_MANIFEST_DIR")).join("../..");
        let read = |name: &str| std::fs::read(folder.join(name)).unwrap();
        for (name, listing) in
            [("host/sample/corrected", "host/sample/corrected.listing"), ("crates/corrected/stdin", "crates/corrected/stdout")]
        {
            assert_eq!(corrected(&read(name), b"").as_bytes(), read(listing), "{name}");
        }
    }

    #[test]
    fn the_header() {
        let list = |header: &str| corrected(&input(header, &rows("%\nN001\n"), &rows("%\n")), b"");
        for sound in ["2539 N3G2* 7 2", "2539 N3G2* 007 02", "1057 N3* 7 0000000000000000000000000002"] {
            assert_eq!(list(sound), "N 001 -\nblocks 1\n", "{sound:?}");
        }
        for wrong in [
            "",
            "2539",
            "2539 ",
            "2539 N3G2*",
            "2539 N3G2* ",
            "2539 N3G2* 9",
            "2539 N3G2* 7 ",
            "2539 N3G2*  2",
            "2539 N3G2*  7 2",
            "2539 N3G2* 7  2",
            "2539 N3G2* 7 2 ",
            "2539  N3G2* 7 2",
            "2539 N3G2* 7 2 0",
            "2539 N3G2* 7\t2",
            "2539 N3G2* +7 2",
            "2539 N3G2* 7 2.",
            "2539 N3G2* 7 x2",
            "2539 N3G2* 7 \u{662}",
            "2539 N3G2* 7 2\r",
            "2538 N3G2* 7 2",
            "02539 N3G2* 7 2",
            // not the counts of the rows
            "2539 N3G2* 6 2",
            "2539 N3G2* 8 2",
            "2539 N3G2* 7 1",
            "2539 N3G2* 7 3",
            "2539 N3G2* 0 0",
            "2539 N3G2* 7 18446744073709551618",
            "2539 N3G2* 18446744073709551615 10",
            "2539 N3G2* 9999999999999999999999 2",
        ] {
            assert_eq!(list(wrong), "refused 1 0\n", "{wrong:?}");
        }
        // the counts say which rows are which tape's
        assert_eq!(list("2539 N3G2* 6 3"), "refused 14 6\n");
        assert_eq!(list("2539 N3G2* 9 0"), "refused 9 7\n");
        assert_eq!(list("2539 N3G2* 2 7"), "refused 8 0\n");
        assert_eq!(list("2539 N3G2* 0 9"), "refused 8 0\n");
        assert_eq!(list("2539  7 2"), "refused 2 0\n");
        let long = |length: usize| list(&format!("{PLAIN} {:0>1$} 2", 7, length - PLAIN.len() - 4));
        assert_eq!(long(200), "N 001 -\nblocks 1\n");
        assert_eq!(long(201), "refused 1 0\n");
        assert_eq!(corrected(b"", b""), "refused 1 0\n");
        assert_eq!(corrected(b"2539 N3G2* 0 0", b""), "refused 1 0\n");
        assert_eq!(corrected(b"2539 N3G2* 0 0\n", b""), "refused 8 0\n");
    }

    /// Each input has all the faults of those behind it.
    #[test]
    fn the_order_of_refusals() {
        let [wrong, cut, sound] = [rows("%\nX5\n"), rows("%\nN"), rows("%\n")];
        let refused = |beginning, correction: &[u8], master: &[u8], profile, number: u32, place: u64| {
            assert_eq!(counted(beginning, correction, master, profile), format!("refused {number} {place}\n"));
        };
        assert_eq!(corrected(&input("2539 N3 5 4", &wrong, &cut), b"LTM"), "refused 1 0\n");
        refused("2538 N3", &wrong, &cut, "LTM", 1, 0);
        refused("2539 N3", &wrong, &cut, "LTM", 2, 2);
        refused("1057 N3F2*", &wrong, &cut, "LTM", 3, 2);
        refused("2539 N3*", &wrong, &cut, "LTM", 22, 3);
        refused("2539 N3*", &wrong, &cut, "LTM111A", 23, 0);
        refused("2539 N3*", &wrong, &cut, "LTM000A", 9, 2);
        refused("2539 N3*", &sound, &cut, "LTM000A", 14, 3);
        assert_eq!(counted("2539 N3*", &sound, &sound, "LTM000A"), "blocks 0\n");
        // a late stage of the correction comes before an early one of the master
        refused(PLAIN, &rows("%\nN001G1\n"), &[1], "", 11, 8);
        refused(PLAIN, &sound, &[1], "", 5, 0);
        refused(PLAIN, &sound, &[], "", 8, 0);
        refused(PLAIN, &[], &sound, "", 8, 0);
    }

    #[test]
    fn too_many_rows() {
        let long = |row: u8, length: usize| {
            let mut tape = rows("%\nN001\n");
            tape.resize(length, row);
            tape
        };
        let [most, more, sound, wrong] = [long(0, MOST_ROWS), long(1, MOST_ROWS + 1), rows("%\nN002\n"), rows("%\nX")];
        let list = |correction: &[u8], master: &[u8]| counted(PLAIN, correction, master, "");
        assert_eq!(list(&most, &sound), "N 002 -\nN 001 -\nblocks 2\n");
        assert_eq!(list(&sound, &most), "N 001 -\nN 002 -\nblocks 2\n");
        assert_eq!(list(&most, &most), "N 001 -\nblocks 1\n");
        for (correction, master) in [(&more, &sound), (&sound, &more), (&more, &wrong), (&more, &most), (&most, &more)] {
            assert_eq!(list(correction, master), "refused 4 60000\n");
        }
        // in its turn
        assert_eq!(list(&wrong, &more), "refused 9 2\n");
        assert_eq!(counted("2539 N2*", &more, &more, ""), "refused 2 0\n");
        assert_eq!(counted(PLAIN, &more, &more, "LTM111A"), "refused 23 0\n");
        assert_eq!(corrected(&input("2539 N3G2* 60000 60000", &more, &more), b""), "refused 1 0\n");
    }

    #[test]
    fn under_a_profile() {
        let list = |profile| counted("2539 N3.G2.X+042*", &rows("%\nN002\t02\t-5\n"), &rows("%\nN002\t01\t5\n"), profile);
        assert_eq!(list("LTM110A"), "N 002 - G2 X-5\nblocks 1\n");
        assert_eq!(list(""), "refused 10 7\n");
    }
}
