//! The place of refusal 22 by its definition: every profile in form is spelt out, and the first wrong byte is the one up
//! to which none of them begins as the text does. Nothing of the parser is used.

use super::Profile;
use crate::shorthand::Edition;
use crate::trial::inputs::texts;
use std::collections::HashSet;

/// Two digits stand for all.
const DIGIT: &[&str] = &["0", "7"];
/// What stands in a profile, and a byte that never does.
const TELLING: &[u8] = b"IPLMRDATSB 07X";

/// Every profile in form, place by place.
fn in_form(edition: Edition) -> Vec<Vec<u8>> {
    let due: &[&str] = &["", "R", "D"];
    let space: &[&str] = &["", " "];
    let places: &[&[&str]] = match edition {
        Edition::Iso1057 => &[&["I"], &["P", "L"], &["M", "I"], due, space, DIGIT, DIGIT, DIGIT, space],
        Edition::Iso2539 => &[&["P", "L"], &["A", "T", "S"], &["M"], due, space, DIGIT, DIGIT, DIGIT, space, &["A", "I", "B"]],
    };
    places.iter().fold(vec![Vec::new()], |begun, choices| {
        let longer = |text: &Vec<u8>| choices.iter().map(|choice| [text, choice.as_bytes()].concat()).collect::<Vec<_>>();
        begun.iter().flat_map(longer).collect()
    })
}

struct Search {
    edition: Edition,
    in_form: HashSet<Vec<u8>>,
    beginnings: HashSet<Vec<u8>>,
}

impl Search {
    fn new(edition: Edition) -> Search {
        let all = in_form(edition);
        let beginnings = all.iter().flat_map(|text| (0..=text.len()).map(|end| text[..end].to_vec())).collect();
        Search { edition, in_form: all.into_iter().collect(), beginnings }
    }

    /// The place that the rules have for `text`; none where it is in form.
    fn place(&self, text: &[u8]) -> Option<u64> {
        let wrong = (0..text.len()).find(|&at| !self.beginnings.contains(&text[..=at])).unwrap_or(text.len());
        (!self.in_form.contains(text)).then_some(wrong as u64)
    }

    fn compare(&self, text: &[u8]) {
        let found = Profile::parse(self.edition, text).err().map(|refusal| (refusal.number, refusal.place));
        assert_eq!(found, self.place(text).map(|place| (22, place)), "{:?} {}", self.edition, text.escape_ascii());
    }
}

/// Every text of a beginning and at most four bytes.
#[test]
fn short_texts() {
    let ends = texts(TELLING, 4);
    for (edition, starts) in [
        (Edition::Iso1057, ["", "I", "IPM", "ILID", "IPM ", "IPM7", "IPM077", "IPMR 77"]),
        (Edition::Iso2539, ["", "L", "LTM", "PAMR", "LSM ", "LSM0", "LSM077", "LSMD 77"]),
    ] {
        let search = Search::new(edition);
        for (start, end) in starts.iter().flat_map(|start| ends.iter().map(move |end| (start, end))) {
            search.compare(&[start.as_bytes(), end].concat());
        }
    }
}

/// Every profile in form, and each with one byte left out, put in or changed.
#[test]
fn one_byte_off() {
    for edition in [Edition::Iso1057, Edition::Iso2539] {
        let search = Search::new(edition);
        assert!(search.in_form.len() > 300);
        for text in &search.in_form {
            search.compare(text);
            for at in 0..=text.len() {
                let (before, behind) = text.split_at(at);
                let next = behind.get(1..).unwrap_or(&[]);
                search.compare(&[before, next].concat());
                for byte in TELLING {
                    search.compare(&[before, &[*byte], behind].concat());
                    search.compare(&[before, &[*byte], next].concat());
                }
            }
        }
    }
}
