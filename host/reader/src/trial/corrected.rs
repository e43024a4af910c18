//! Lines of two letters: a correction tape beside its master.

use super::indexed::{list_text, number_text};
use super::lines::{asked, judged, rows_text, spelt, told, Line, Reply};
use crate::corrections::{entry, indexed_entry, rows, Entry, Tape};
use crate::index::MARK;
use crate::rows::punched;
use crate::specification::Specification;
use crate::{count_blocks, Refusal};

/// One line.
pub enum Corrected {
    /// CP: the rows of a number
    Rows {
        /// the two tapes
        pair: Pair,
        /// which number, or the mark
        number: u64,
    },
    /// CE: entry n of the corrected listing
    Entry {
        /// the two tapes
        pair: Pair,
        /// which entry, from 0
        n: u64,
    },
    /// CI: entry n by the numbers that are on the two tapes, which has to be the one of CE
    Kept {
        /// the two tapes, both accepted
        pair: Pair,
        /// the numbers of the correction's blocks, and of the master's
        numbers: [Vec<u64>; 2],
        /// which entry, from 0
        n: u64,
    },
    /// CI: entry n by any numbers
    Indexed {
        /// those of the correction's blocks, and of the master's
        numbers: [Vec<u64>; 2],
        /// which entry, from 0
        n: u64,
    },
}

/// Two tapes.
#[derive(Clone)]
pub struct Pair {
    /// what both are judged by
    pub specification: Specification,
    /// the rows of the correction
    pub correction: Vec<u8>,
    /// the rows of the master
    pub master: Vec<u8>,
}

impl Pair {
    fn text(&self, letters: &str, which: &str) -> Vec<u8> {
        let Pair { specification, correction, master } = self;
        // a bar on the correction could be taken for the one behind it
        let correction = asked(correction).replace("?|", "\\124").replace('|', "\\252");
        judged(letters, specification, &format!("{which} {correction} | {}", asked(master)))
    }

    fn rows(&self, number: u64) -> Result<&[u8], Refusal> {
        rows(&self.specification.format()?, &self.correction, &self.master, number).map(|(_, rows)| rows)
    }

    fn entry(&self, n: u64) -> Result<Entry, Refusal> {
        entry(&self.specification.format()?, &self.correction, &self.master, n)
    }

    /// The tape that has the refusal, if it is one's own.
    fn refused(&self, refusal: Refusal) -> Option<Tape> {
        if !(4..=14).contains(&refusal.number) {
            return None;
        }
        let accepted = count_blocks(&self.specification, &self.correction).is_ok();
        Some(if accepted { Tape::Master } else { Tape::Correction })
    }

    /// The reply with what is handed back. A refusal hands back nothing.
    fn reply<T>(&self, result: Result<T, Refusal>, text: impl Fn(T) -> String) -> Reply {
        let refused = result.as_ref().err().and_then(|&refusal| self.refused(refusal));
        let mut reply = reply(result, text);
        reply.refused = refused;
        reply
    }
}

fn reply<T>(result: Result<T, Refusal>, text: impl Fn(T) -> String) -> Reply {
    let (number, place) = result.as_ref().err().map_or((0, 0), |&refusal| told(refusal));
    Reply::new(number, place, &result.map_or(String::new(), text))
}

fn entry_text(Entry { tape, block }: Entry) -> String {
    match tape {
        Tape::Correction => format!("C{block}"),
        Tape::Master => format!("M{block}"),
    }
}

fn numbers_text([correction, master]: &[Vec<u64>; 2], n: u64) -> Vec<u8> {
    format!("CI {n} {} {}", list_text(correction), list_text(master)).into_bytes()
}

impl Corrected {
    /// The line as it is asked.
    pub(super) fn text(&self) -> Vec<u8> {
        match self {
            Corrected::Rows { pair, number } => pair.text("CP", &number_text(*number)),
            Corrected::Entry { pair, n } => pair.text("CE", &n.to_string()),
            Corrected::Kept { numbers, n, .. } | Corrected::Indexed { numbers, n } => numbers_text(numbers, *n),
        }
    }

    /// The reader's answer.
    pub(super) fn answer(&self) -> Reply {
        match self {
            Corrected::Rows { pair, number } => pair.reply(pair.rows(*number), rows_text),
            Corrected::Entry { pair, n } | Corrected::Kept { pair, n, .. } => pair.reply(pair.entry(*n), entry_text),
            Corrected::Indexed { numbers: [correction, master], n } => reply(indexed_entry(correction, master, *n), entry_text),
        }
    }
}

/// Parts that are missing or empty, and bars with a space on one side alone.
pub(super) fn edges() -> Vec<Line> {
    let rows = |text: &str| -> Vec<u8> { text.bytes().map(punched).collect() };
    let pair = |correction: &str, master: &str| Pair {
        specification: Specification::new(2539, "N3G2*", ""),
        correction: rows(correction),
        master: rows(master),
    };
    let line = |corrected| Line::Corrected(Box::new(corrected));
    let asked = |number, correction: &str, master: &str| line(Corrected::Rows { pair: pair(correction, master), number });
    let listed = |n, correction: &str, master: &str| line(Corrected::Entry { pair: pair(correction, master), n });
    let indexed =
        |n, correction: &[u64], master: &[u64]| line(Corrected::Indexed { numbers: [correction.to_vec(), master.to_vec()], n });
    vec![
        spelt("CP 2539 N3G2*", asked(0, "", "")),
        spelt("CP 2539 N3G2* 1", asked(1, "", "")),
        spelt("CP 2539 N3G2* 1 %~", asked(1, "%\n", "")),
        spelt("CP 2539 N3G2* 1 %~ |", asked(1, "%\n |", "")),
        spelt("CP 2539 N3G2* 1 %~ | ", asked(1, "%\n", "")),
        spelt("CP 2539 N3G2* 1 %~N001~ |%~", asked(1, "%\nN001\n |%\n", "")),
        spelt("CP 2539 N3G2* 1 %~N001~| %~", asked(1, "%\nN001\n| %\n", "")),
        spelt("CP 2539 N3G2* 1  | %~N001~", asked(1, "", "%\nN001\n")),
        spelt("CP 2539 N3G2* 1 | %~N001~", asked(1, "| %\nN001\n", "")),
        spelt("CP 2539 N3G2* 1 %~ | %~ | %~", asked(1, "%\n", "%\n | %\n")),
        spelt("CP 2539 N3G2* 1 %~ |  | %~", asked(1, "%\n", " | %\n")),
        spelt("CP 2539 N3G2* 1 %~ | %~N001~", asked(1, "%\n", "%\nN001\n")),
        spelt("CP 2539 N3G2*|| 1 %~ | %~N001~", asked(1, "%\n", "%\nN001\n")),
        spelt("CP 2539 N3G2*  %~ | %~N000~", asked(0, "%\n", "%\nN000\n")),
        spelt("CP 2539 N3G2* - %~G01~ | %~N000~", asked(MARK, "%\nG01\n", "%\nN000\n")),
        spelt("CP 2539 N3G2* -1 %~ | %~N001~", asked(MARK, "%\n", "%\nN001\n")),
        spelt("CP 2539 N3G2* 001 %~ | %~N001~", asked(1, "%\n", "%\nN001\n")),
        spelt("CE 2539 N3G2*  %~N001~ | %~", listed(0, "%\nN001\n", "%\n")),
        spelt("CE 2539 N3G2* - %~N001~ | %~", listed(0, "%\nN001\n", "%\n")),
        spelt("CE 2539 N3G2* 18446744073709551615 %~N001~ | %~", listed(u64::MAX, "%\nN001\n", "%\n")),
        spelt("CI ", indexed(0, &[], &[])),
        spelt("CI 0 7", indexed(0, &[7], &[])),
        spelt("CI 0  7", indexed(0, &[], &[7])),
        spelt("CI 1 7 7,", indexed(1, &[7], &[7, 0])),
        spelt("CI 0 .7 7", indexed(0, &[], &[7])),
        spelt("CI 0 -7 -", indexed(0, &[MARK], &[MARK])),
        spelt("CI 2 7 1,2 7", indexed(2, &[7], &[1, 2])),
        spelt("CI 18446744073709551615 7 7", indexed(u64::MAX, &[7], &[7])),
    ]
}

#[cfg(test)]
mod tests {
    use super::*;

    const CORRECTION: &str = "%\nN002G02\nG03\nN009\n";
    const MASTER: &str = "%\nN001\nG01\nN002\n";

    fn pair(correction: &str, master: &str) -> Pair {
        let rows = |text: &str| text.bytes().map(punched).collect();
        Pair { specification: Specification::new(2539, "N3G2*", ""), correction: rows(correction), master: rows(master) }
    }

    /// What is written for a line.
    fn written(corrected: Corrected) -> String {
        format!("{}{}", String::from_utf8(corrected.text()).unwrap(), corrected.answer())
    }

    #[test]
    fn lines_of_corrections() {
        let spelt = "%~N002G02~G03~N009~ | %~N001~G01~N002~";
        let rows = |number| written(Corrected::Rows { pair: pair(CORRECTION, MASTER), number });
        assert_eq!(rows(2), format!("CP 2539 N3G2* 2 {spelt} -> 0 0 N002G02~"));
        assert_eq!(rows(1), format!("CP 2539 N3G2* 1 {spelt} -> 0 0 N001~"));
        assert_eq!(rows(MARK), format!("CP 2539 N3G2* - {spelt} -> 25 0"));
        let entry = |n| written(Corrected::Entry { pair: pair(CORRECTION, MASTER), n });
        assert_eq!(entry(1), format!("CE 2539 N3G2* 1 {spelt} -> 0 0 M1"));
        assert_eq!(entry(2), format!("CE 2539 N3G2* 2 {spelt} -> 0 0 C0"));
        assert_eq!(entry(3), format!("CE 2539 N3G2* 3 {spelt} -> 0 0 C2"));
        assert_eq!(entry(4), format!("CE 2539 N3G2* 4 {spelt} -> 15 4"));
        let numbers = || [vec![2, MARK, 9], vec![1, MARK, 2]];
        let kept = |n| written(Corrected::Kept { pair: pair(CORRECTION, MASTER), numbers: numbers(), n });
        let indexed = |n| written(Corrected::Indexed { numbers: numbers(), n });
        assert_eq!(kept(2), "CI 2 2,-,9 1,-,2 -> 0 0 C0");
        assert_eq!(kept(4), "CI 4 2,-,9 1,-,2 -> 15 4");
        assert!((0..6).all(|n| kept(n) == indexed(n)));
        assert_eq!(written(Corrected::Indexed { numbers: [vec![], vec![]], n: 0 }), "CI 0 . . -> 15 0");
    }

    #[test]
    fn bars_on_a_tape() {
        let rows = |correction, master| written(Corrected::Rows { pair: pair(correction, master), number: 1 });
        assert_eq!(rows("%\n | ", "%\n | "), "CP 2539 N3G2* 1 %~ \\252  | %~ |  -> 6 3");
        let odd = Pair { correction: vec![124], ..pair("", "") };
        assert_eq!(written(Corrected::Rows { pair: odd, number: 1 }), "CP 2539 N3G2* 1 \\124 |  -> 5 0");
    }

    #[test]
    fn whose_refusal() {
        let refused = |correction, master| Corrected::Entry { pair: pair(correction, master), n: 9 }.answer().refused;
        assert_eq!(refused("%\nN", "%\nX"), Some(Tape::Correction));
        assert_eq!(refused("%\nN", "%\n"), Some(Tape::Correction));
        assert_eq!(refused("%\n", "%\nX"), Some(Tape::Master));
        assert_eq!(refused("%\n", "%\n"), None);
    }
}
