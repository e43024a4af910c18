//! The general shorthand of annex C, read as a profile that the detailed one must agree with: refusals 22 and 23.

use crate::shorthand::{Edition, Format, Kind, Layout, Mark};
use crate::Refusal;

/// What a profile in form says. P or L, and M or I, say nothing of a tape.
#[derive(Clone, Copy, Debug, PartialEq, Eq)]
pub struct Profile {
    /// A, T or S; 1057 has none of them
    way: Option<u8>,
    /// whether R or D stands
    angular: bool,
    /// how many motions are controlled, how many of them by dimension words, how many at the same time
    motions: [usize; 3],
    /// A, I or B; 1057 has none of them
    coordinates: Option<u8>,
}

impl Profile {
    /// What `text` says by `edition`, or 22 at the first wrong byte or the length.
    pub fn parse(edition: Edition, text: &[u8]) -> Result<Profile, Refusal> {
        let mut rest = Rest { text, at: 0 };
        let way = match edition {
            Edition::Iso1057 => {
                rest.one_of(b"I")?;
                rest.one_of(b"PL")?;
                rest.one_of(b"MI")?;
                None
            }
            Edition::Iso2539 => {
                rest.one_of(b"PL")?;
                let way = rest.one_of(b"ATS")?;
                rest.one_of(b"M")?;
                Some(way)
            }
        };
        let angular = rest.perhaps(b"RD");
        rest.perhaps(b" ");
        let motions = [rest.digit()?, rest.digit()?, rest.digit()?];
        rest.perhaps(b" ");
        let coordinates = match edition {
            Edition::Iso1057 => None,
            Edition::Iso2539 => Some(rest.one_of(b"AIB")?),
        };
        rest.end()?;
        Ok(Profile { way, angular, motions, coordinates })
    }

    /// `detailed` under this profile, or 23 where they don't agree.
    pub fn format(&self, detailed: Format) -> Result<Format, Refusal> {
        if !self.agrees_with(&detailed) {
            return Err(Refusal::new(23, 0));
        }
        // where there are no items there is nothing to tell apart
        let layout = if self.way == Some(b'T') && !detailed.items.is_empty() { Layout::Tabs } else { detailed.layout };
        Ok(Format { layout, ..detailed })
    }

    fn agrees_with(&self, detailed: &Format) -> bool {
        let dimensions: Vec<(u8, Mark)> = detailed
            .items
            .iter()
            .filter_map(|item| match item.kind {
                Kind::Dimension { mark, .. } => Some((item.letter, mark)),
                _ => None,
            })
            .collect();
        // due exactly when one of these is a dimension, and no feed
        let angular = dimensions.iter().any(|(letter, _)| b"ABCDE".contains(letter));
        // a shorthand without word items doesn't say whether it has dots
        let dots = self.way.is_none_or(|way| detailed.items.is_empty() || detailed.layout.has_tabs() == (way != b'A'));
        let incremental = |(_, mark): &(u8, Mark)| *mark == Mark::Incremental;
        let marks = match self.coordinates {
            Some(b'A') => !dimensions.iter().any(incremental),
            Some(b'I') => dimensions.iter().all(incremental),
            _ => true,
        };
        let by_words = dimensions.iter().filter(|(letter, _)| !b"IJK".contains(letter)).count();
        let [first, second, third] = self.motions;
        self.angular == angular && dots && marks && by_words == second && third <= second && second <= first
    }
}

/// What is left of a text. Each part is told by its first byte, so that a byte which can't be taken is the first wrong one.
struct Rest<'t> {
    text: &'t [u8],
    at: usize,
}

impl Rest<'_> {
    fn one_of(&mut self, choices: &[u8]) -> Result<u8, Refusal> {
        let found = self.text.get(self.at).filter(|byte| choices.contains(byte)).ok_or(Refusal::new(22, self.at))?;
        self.at += 1;
        Ok(*found)
    }

    fn perhaps(&mut self, choices: &[u8]) -> bool {
        self.one_of(choices).is_ok()
    }

    fn digit(&mut self) -> Result<usize, Refusal> {
        self.one_of(b"0123456789").map(|digit| usize::from(digit - b'0'))
    }

    fn end(&self) -> Result<(), Refusal> {
        if self.at < self.text.len() {
            return Err(Refusal::new(22, self.at));
        }
        Ok(())
    }
}

#[cfg(test)]
mod by_search;

#[cfg(test)]
mod tests {
    use crate::shorthand::Layout;
    use crate::specification::Specification;
    use crate::Refusal;

    /// The number and place that the three are refused with; 0 0 where they have a format.
    fn answer(edition: u32, shorthand: &str, profile: &str) -> (u32, u64) {
        match Specification::new(edition, shorthand, profile).format() {
            Ok(_) => (0, 0),
            Err(refusal) => (refusal.number, refusal.place),
        }
    }

    const BORING_MILL: &str = "N3.G2.X+42.Y+32.Z31.B33.F3.S3.T2.M2*";

    #[test]
    fn the_worked_cases() {
        assert_eq!(answer(2539, BORING_MILL, "LSMD442A"), (0, 0));
        assert_eq!(answer(2539, BORING_MILL, "LSMD 442A"), (0, 0));
        assert_eq!(answer(2539, "N3.G2.X+42.Y+32.Z31.F3.S3.T2.M2*", "LSMD442A"), (23, 0));
        assert_eq!(answer(2539, "N3.G2.X+042*", "LTM110A"), (0, 0));
        assert_eq!(answer(1057, "N3.X+42*", "IPM111"), (0, 0));
        assert_eq!(answer(1057, "N3.X+42*", "IPM11"), (22, 5));
        assert_eq!(answer(1057, "N3.X+42*", "IPX111"), (22, 2));
        assert_eq!(answer(1057, "N3.X+42*", "IPM121"), (23, 0));
    }

    #[test]
    fn the_examples_of_annex_c() {
        assert_eq!(answer(1057, "N3.X+42.Y+42*", "IPM 321"), (0, 0));
        assert_eq!(answer(2539, "N3XD42YD42*", "LAM 321 I"), (0, 0));
    }

    #[test]
    fn letters_spaces_and_digits() {
        for profile in ["IPI111", "ILM111", "ILI 111 ", "IPM111 ", "IPM 111"] {
            assert_eq!(answer(1057, "N3.X+42*", profile), (0, 0), "{profile}");
        }
        for profile in ["PSM111A", "LSM111B", "PTM 111A", "LTM111 A", "PSM 910 B"] {
            assert_eq!(answer(2539, "N3.X+42*", profile), (0, 0), "{profile}");
        }
        for (profile, place) in [("I", 1), (" IPM111", 0), ("IPM  111", 4), ("IPM1 11", 4), ("IPM111A", 6), ("IPM111  ", 7)] {
            assert_eq!(answer(1057, "N3.X+42*", profile), (22, place), "{profile}");
        }
        for (profile, place) in
            [("ISM111A", 0), ("LSI111A", 2), ("LSMRD111A", 4), ("LSM111", 6), ("LSM111 ", 7), ("LSM111AA", 7), ("LSM111A ", 7)]
        {
            assert_eq!(answer(2539, "N3.X+42*", profile), (22, place), "{profile}");
        }
        assert_eq!(answer(2539, "N3.X+42*", "\0"), (22, 0));
    }

    #[test]
    fn angular_dimensions() {
        for letter in ["A", "B", "C", "D", "E"] {
            let shorthand = format!("N3.{letter}+42*");
            assert_eq!(answer(1057, &shorthand, "IPMR111"), (0, 0));
            assert_eq!(answer(1057, &shorthand, "IPMD 111"), (0, 0));
            assert_eq!(answer(1057, &shorthand, "IPM111"), (23, 0));
        }
        assert_eq!(answer(1057, "N3.X+42*", "IPMR111"), (23, 0));
        // feeds are no dimensions
        assert_eq!(answer(1057, "N3.X+42.E3.D4*", "IPM111"), (0, 0));
        assert_eq!(answer(1057, "N3.X+42.E3.D4*", "IPMD111"), (23, 0));
        assert_eq!(answer(2539, "N3.I42*", "PSM000A"), (0, 0));
    }

    #[test]
    fn dots() {
        for (way, with, without) in [("A", 23, 0), ("S", 0, 23), ("T", 0, 23)] {
            assert_eq!(answer(2539, "N3.X42*", &format!("L{way}M111A")).0, with);
            assert_eq!(answer(2539, "N3X42*", &format!("L{way}M111A")).0, without);
            assert_eq!(answer(2539, "N3*", &format!("L{way}M000A")).0, 0);
        }
    }

    #[test]
    fn absolute_and_incremental() {
        let last = |shorthand: &str, motions: &str| {
            ["A", "I", "B"].map(|last| answer(2539, shorthand, &format!("LSM{motions}{last}")).0)
        };
        assert_eq!(last("N3.X42.Y+42*", "220"), [0, 23, 0]);
        assert_eq!(last("N3.XD42.YD42*", "220"), [23, 0, 0]);
        assert_eq!(last("N3.X+42.YD42*", "220"), [23, 23, 0]);
        // I, J and K have marks too, though they are not counted
        assert_eq!(last("N3.X+42.ID42*", "110"), [23, 23, 0]);
        assert_eq!(last("N3.XD42.J42*", "110"), [23, 23, 0]);
        assert_eq!(last("N3.G2*", "000"), [0, 0, 0]);
    }

    #[test]
    fn motions() {
        assert_eq!(answer(2539, "N3.X42.I42.J42.K42*", "LSM111A"), (0, 0));
        assert_eq!(answer(2539, "N3.X42.I42*", "LSM221A"), (23, 0));
        assert_eq!(answer(1057, "N3.X42.Y42*", "IPM920"), (0, 0));
        assert_eq!(answer(1057, "N3.X42.Y42*", "IPM120"), (23, 0));
        assert_eq!(answer(1057, "N3.X42.Y42*", "IPM323"), (23, 0));
        assert_eq!(answer(1057, "N3*", "ILI000"), (0, 0));
        let nine = "N3.X42.Y42.Z42.U42.V42.W42.P42.Q42.R42";
        assert_eq!(answer(1057, &format!("{nine}*"), "IPM999"), (0, 0));
        assert_eq!(answer(1057, &format!("{nine}.A42*"), "IPMR999"), (23, 0));
        assert_eq!(answer(1057, &format!("{nine}.A42*"), "IPMR900"), (23, 0));
    }

    #[test]
    fn the_order_of_refusals() {
        assert_eq!(answer(1058, "N3.X", "?"), (1, 0));
        assert_eq!(answer(2539, "N3.X", "?"), (2, 4));
        assert_eq!(answer(1057, "N3.X042*", "IPM000"), (3, 2));
        // out of form, and no agreement either
        assert_eq!(answer(1057, "N3.X42*", "IPMR99"), (22, 6));
        assert_eq!(answer(1057, "N3.X42*", ""), (0, 0));
    }

    #[test]
    fn the_layout() {
        let layout = |shorthand, profile| Specification::new(2539, shorthand, profile).format().map(|format| format.layout);
        assert_eq!(layout("N3.X42*", "LTM111A"), Ok(Layout::Tabs));
        assert_eq!(layout("N3.X42*", "LSM111A"), Ok(Layout::Both));
        assert_eq!(layout("N3X42*", "LAM111A"), Ok(Layout::Addresses));
        assert_eq!(layout("N3*", "LTM000A"), Ok(Layout::Addresses));
        assert_eq!(layout("N3X42*", "LTM111A"), Err(Refusal::new(23, 0)));
    }
}
