//! The answer to a shorthand by its definition: every continuation is tried against a plain predicate for sound
//! shorthands, and what none of them makes sound could not be mended. Nothing of the parser is used.

use super::parse;
use crate::trial::inputs::texts;
use std::collections::HashMap;

/// X Y Z U V W P Q R, then I J K, then A B C D E.
const DIMENSIONS: &[u8] = b"XYZUVWPQRIJKABCDE";

/// Whether `text` is a sound shorthand, sentence by sentence.
fn is_sound(edition: u32, text: &[u8]) -> bool {
    let newer = edition == 2539;
    // N item, word items, `*`, nothing after
    let Some((b'*', text)) = text.split_last() else { return false };
    let [b'N', sequence, words @ ..] = text else { return false };
    // N has one digit: 3 in 1057, 3 to 9 in 2539
    let sequence = *sequence == b'3' || newer && (b'3'..=b'9').contains(sequence);
    // each word item begins with a dot, or none does; 1057 requires the dots
    let items = pieces(words);
    let dots = items.iter().filter(|item| item.starts_with(b".")).count();
    let dotted = dots == items.len() || newer && dots == 0;
    let bare: Vec<&[u8]> = items.iter().map(|item| item.strip_prefix(b".").unwrap_or(item)).collect();
    let classes: Option<Vec<char>> = bare.iter().map(|item| class(newer, item)).collect();
    let Some(classes) = classes else { return false };
    // a letter stands once
    let once = (0..bare.len()).all(|at| bare[..at].iter().all(|earlier| earlier[0] != bare[at][0]));
    let dimensions = bare.iter().zip(&classes).filter(|(_, &class)| class == 'd');
    let ranks: Vec<usize> = dimensions.filter_map(|(item, _)| DIMENSIONS.iter().position(|l| *l == item[0])).collect();
    sequence && dotted && once && ranks.is_sorted() && is_in_order(&classes)
}

/// The word items: one begins at each dot, and at each letter that stands first or behind a digit.
fn pieces(words: &[u8]) -> Vec<&[u8]> {
    let begins = |at: usize| {
        let behind_digit = at == 0 || words[at - 1].is_ascii_digit();
        words[at] == b'.' || at == 0 || behind_digit && words[at].is_ascii_uppercase()
    };
    let mut starts: Vec<usize> = (0..words.len()).filter(|&at| begins(at)).collect();
    starts.push(words.len());
    starts.windows(2).map(|ends| &words[ends[0]..ends[1]]).collect()
}

/// The letter of an item in form, `d` for a dimension and `f` for an E or D that is a feed.
fn class(newer: bool, item: &[u8]) -> Option<char> {
    match item {
        b"G2" => return Some('G'),
        b"M2" => return Some('M'),
        [b'T', b'1'..=b'9'] => return Some('T'),
        [b'S', b'3'..=b'5'] => return Some('S'),
        [b'F', b'3'..=b'5'] => return Some('F'),
        // F2 and S2 in 2539 only
        [letter @ (b'F' | b'S'), b'2'] if newer => return Some(char::from(*letter)),
        [b'E' | b'D', b'3'..=b'5'] => return Some('f'),
        _ => {}
    }
    let (letter, digits) = match item {
        [letter, b'+' | b'D', digits @ ..] => (letter, digits),
        [letter, digits @ ..] => (letter, digits),
        [] => return None,
    };
    let known = DIMENSIONS.contains(letter) && (newer || !b"IJK".contains(letter));
    let in_form = match digits {
        [a, b] => (a, b) != (&b'0', &b'0'),
        // both outer digits zero, or neither, is refused
        [a, _, c] => newer && (*a == b'0') != (*c == b'0'),
        _ => false,
    };
    (known && in_form && digits.iter().all(u8::is_ascii_digit)).then_some('d')
}

/// G2; dimensions, each with one feed behind it or none; feeds in any order; S, T, M.
fn is_in_order(classes: &[char]) -> bool {
    let mut rest = classes;
    let pass = |rest: &mut &[char], wanted: &[char]| match rest {
        [first, others @ ..] if wanted.contains(first) => {
            *rest = others;
            true
        }
        _ => false,
    };
    pass(&mut rest, &['G']);
    while pass(&mut rest, &['d']) {
        pass(&mut rest, &['f']);
    }
    while pass(&mut rest, &['f', 'F']) {}
    pass(&mut rest, &['S']);
    pass(&mut rest, &['T']);
    pass(&mut rest, &['M']);
    rest.is_empty()
}

/// Where the item ends that begins at `at`, with a dot or without.
fn item_end(text: &[u8], at: usize) -> usize {
    let mut end = at + usize::from(text[at] == b'.') + 1;
    if matches!(text.get(end), Some(b'+' | b'D')) {
        end += 1;
    }
    while text.get(end).is_some_and(u8::is_ascii_digit) {
        end += 1;
    }
    end.min(text.len())
}

/// Answers by search, each prefix searched once.
struct Search {
    /// what may come behind a prefix
    continuations: Vec<Vec<u8>>,
    found: HashMap<(u32, Vec<u8>, bool), bool>,
}

impl Search {
    /// A sound shorthand has one `*`, its last byte. The longest way to it is three bytes, as from a dot to `M2*` or
    /// from X to `22*`.
    fn new() -> Search {
        let continuations = texts(b".+EDFMX0235", 2).into_iter().map(|more| [&more, &b"*"[..]].concat()).collect();
        Search { continuations, found: HashMap::new() }
    }

    /// Whether the item of `text` from `at` to `end` could be mended: behind all before it, some continuation is sound.
    /// Where the text goes on behind the item, the continuation must leave it as it is.
    fn mends(&mut self, edition: u32, text: &[u8], at: usize, end: usize) -> bool {
        let open = end == text.len();
        let Search { continuations, found } = self;
        *found.entry((edition, text[..end].to_vec(), open)).or_insert_with(|| {
            let mut whole = text[..end].to_vec();
            continuations.iter().any(|more| {
                whole.truncate(end);
                whole.extend_from_slice(more);
                is_sound(edition, &whole) && (open || item_end(&whole, at) == end)
            })
        })
    }

    /// The number and place that the rules have for `text`; 0 0 where it is sound.
    fn answer(&mut self, edition: u32, text: &[u8]) -> (u32, u64) {
        let mut at = 0;
        while at < text.len() {
            if text[at] == b'*' && at > 0 {
                let rest = at + 1;
                return if rest == text.len() { (0, 0) } else { (2, rest as u64) };
            }
            let end = item_end(text, at);
            if !self.mends(edition, text, at, end) {
                let in_form = self.mends(2539, text, at, end);
                return (if in_form { 3 } else { 2 }, at as u64);
            }
            at = end;
        }
        (2, at as u64)
    }

    fn compare(&mut self, text: &[u8]) -> u32 {
        let mut sound = 0;
        for edition in [1057, 2539] {
            let expected = self.answer(edition, text);
            let found = parse(edition, text).map_or_else(|refusal| (refusal.number, refusal.place), |_| (0, 0));
            assert_eq!(found, expected, "{edition} {}", text.escape_ascii());
            assert_eq!(found == (0, 0), is_sound(edition, text), "{edition} {}", text.escape_ascii());
            sound += u32::from(found == (0, 0));
        }
        sound
    }
}

/// Every text of a beginning and at most three or four bytes.
#[test]
fn short_texts() {
    let mut search = Search::new();
    let shorter = texts(b".EDYF+0234*IG", 3);
    let mut compared = 0;
    for start in [
        "",
        "N",
        "N3",
        "N3.",
        "N3.E",
        "N3.D3",
        "N3.X42",
        "N3.X42.",
        "N3.X42.E",
        "N3.X42.E3",
        "N3.X42.E3.",
        "N3.X42.E3.D",
        "N3.X42.E3.D3",
        "N3.X42.E4.Y42.",
        "N3.X42.F3.",
        "N3.X42.F3.E",
        "N3.E42.D",
        "N3.D42.E",
        "N3.X42.D3.E",
        "N3X",
        "N3X42E",
        "N3X42F3D",
        "N3X42E3D",
        "N3D",
        "N3ED",
        "N3E42D3",
        "N3G2",
        "N3S3",
        "N3.S",
        "N3S2",
        "N3.X42.F2",
        "N3.M2",
    ] {
        for end in &shorter {
            search.compare(&[start.as_bytes(), end].concat());
            compared += 1;
        }
    }
    let longer = texts(b".EDYF03*", 4);
    for start in ["N3.X42.E3", "N3X42E3", "N3E3"] {
        for end in &longer {
            search.compare(&[start.as_bytes(), end].concat());
            compared += 1;
        }
    }
    assert!(compared > 80_000);
}

/// At most three items as they may stand, whole or with a `*` or another item, a begun one too, behind them.
#[test]
fn short_successions() {
    let items = ["G2", "X42", "Y42", "I42", "C42", "D42", "E42", "E3", "D4", "F5", "F2", "S3", "S2", "T2", "M2"];
    let begun = ["E", "D", "E0", "D0", "E00", "D2", "E2*", "E+", "DD", "E+3", "F", "S", "D2*", "I", "C", "C00"];
    let mut search = Search::new();
    let mut sound = 0;
    let mut standing: Vec<String> = vec!["N3".into()];
    for _ in 0..=3 {
        let mut longer = Vec::new();
        for before in &standing {
            sound += search.compare(before.as_bytes()) + search.compare(format!("{before}*").as_bytes());
            for (dot, next) in ["", "."].iter().flat_map(|dot| items.iter().chain(&begun).map(move |next| (dot, next))) {
                let text = format!("{before}{dot}{next}");
                sound += search.compare(text.as_bytes());
                // behind an item at fault nothing more is said
                if is_sound(2539, format!("{text}*").as_bytes()) {
                    longer.push(text);
                }
            }
        }
        standing = longer;
    }
    assert!(sound > 1_000);
}
