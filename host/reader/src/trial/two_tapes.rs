//! Makes inputs of the program that lists a corrected tape: a correction and its master behind one header, whose counts divide them.

use super::chance::Chance;
use super::corrected::Pair;
use super::correcting::{Known, Made, HARMED};
use super::damage;
use super::inputs::{argument, header, odd_header, Listed};
use super::programs;
use crate::listing::{self, HEADER, MOST_ROWS};
use crate::rows::LF;

/// Inputs of the program, `size` of them.
pub fn listings(seed: u64, size: usize) -> Vec<Listed> {
    let chance = &mut Chance::new(seed);
    (0..size).map(|at| listed(chance, at)).collect()
}

fn listed(chance: &mut Chance, at: usize) -> Listed {
    if at % 40 == 7 {
        return long(chance, LENGTHS[at / 40 % LENGTHS.len()]);
    }
    let made = Made::drawn(chance);
    match chance.below(21) {
        0..=4 => counted(chance, &made.pair, Some(text_of(&made))),
        5..=11 => {
            // the master's refusals are seen where the correction has none
            let which = chance.one_of(&[HARMED[0], HARMED[1], HARMED[1], HARMED[2]]);
            let (pair, known) = made.harmed(chance, which);
            counted(chance, &pair, refused(known))
        }
        12 | 13 => {
            let (pair, known) = made.other_specification(chance);
            counted(chance, &pair, refused(known))
        }
        14 | 15 => cut(chance, &made),
        16 => odd(chance, &made.pair),
        17 => filled_up(chance, &made),
        18 => divided_elsewhere(chance, &made.pair),
        _ => slipped(chance, &made),
    }
}

fn text_of(made: &Made) -> String {
    listing::text(made.plan.sequence as u32, &made.listing())
}

fn refused(known: Known) -> Option<String> {
    known.map(|(number, place)| format!("refused {number} {place}\n"))
}

/// The header is at fault.
const NOTHING_HANDED: Known = Some((1, 0));

/// The counts of the pair, with the spaces before them.
fn counts(pair: &Pair) -> Vec<u8> {
    format!(" {} {}", pair.correction.len(), pair.master.len()).into_bytes()
}

/// The pair behind a header with its own counts.
fn counted(chance: &mut Chance, pair: &Pair, known: Option<String>) -> Listed {
    behind(chance, &counts(pair), pair, known)
}

/// The pair behind a header with `counts` for its own.
fn behind(chance: &mut Chance, counts: &[u8], pair: &Pair, known: Option<String>) -> Listed {
    let header = header(pair.specification.edition, &[&pair.specification.shorthand, counts].concat());
    whole(chance, header, pair, known)
}

fn whole(chance: &mut Chance, header: Vec<u8>, pair: &Pair, known: Option<String>) -> Listed {
    let input = [&header[..], &pair.correction, &pair.master].concat();
    Listed { input, profile: argument(chance, pair.specification.profile.clone()), known }
}

/// One of the tapes ends anywhere.
fn cut(chance: &mut Chance, made: &Made) -> Listed {
    let mut pair = made.pair.clone();
    let tape = if chance.happens(1, 2) { &mut pair.correction } else { &mut pair.master };
    tape.truncate(chance.below(tape.len()));
    counted(chance, &pair, None)
}

/// A header at the edges of its rules, or with any damage.
fn odd(chance: &mut Chance, pair: &Pair) -> Listed {
    let text = [&pair.specification.shorthand[..], &counts(pair)].concat();
    let header = if chance.happens(1, 2) {
        odd_header(chance, &text)
    } else {
        let mut header = header(pair.specification.edition, &text);
        damage::shorthand(chance, &mut header);
        header
    };
    whole(chance, header, pair, None)
}

/// Zeros before either count, now and then so many that LF stands just within the header's length, or just past it.
fn filled_up(chance: &mut Chance, made: &Made) -> Listed {
    let Pair { specification, correction, master } = &made.pair;
    let mut counts = [correction, master].map(|tape| tape.len().to_string());
    let shortest = header(specification.edition, &specification.shorthand).len() + counts[0].len() + counts[1].len() + 2;
    let zeros = if chance.happens(1, 2) { 1 + chance.below(25) } else { (HEADER - 2 + chance.below(5)).saturating_sub(shortest) };
    let which = chance.below(2);
    counts[which].insert_str(0, &"0".repeat(zeros));
    let known = if shortest + zeros > HEADER { refused(NOTHING_HANDED) } else { Some(text_of(made)) };
    behind(chance, format!(" {} {}", counts[0], counts[1]).as_bytes(), &made.pair, known)
}

/// Counts of as many rows as there are, but not those of either tape.
fn divided_elsewhere(chance: &mut Chance, pair: &Pair) -> Listed {
    let Pair { correction, master, .. } = pair;
    let [first, all] = [correction.len(), correction.len() + master.len()];
    let first = match chance.below(3) {
        0 => chance.one_of(&[first - 1, first + 1]),
        1 => chance.one_of(&[0, master.len(), all]),
        _ => chance.below(all + 1),
    };
    behind(chance, format!(" {first} {}", all - first).as_bytes(), pair, None)
}

/// Counts with a slip, which is judged before all else that may be wrong too.
fn slipped(chance: &mut Chance, made: &Made) -> Listed {
    let (mut pair, _) = match chance.below(4) {
        0 => made.harmed(chance, [true, true]),
        1 => made.other_specification(chance),
        _ => (made.pair.clone(), None),
    };
    if pair.correction.is_empty() || pair.master.is_empty() {
        // nothing could be left out
        pair = made.pair.clone();
    }
    let [c, m] = [pair.correction.len() as u128, pair.master.len() as u128];
    let said = |(c, m): (u128, u128)| format!(" {c} {m}").into_bytes();
    let counts = match chance.below(5) {
        0 => chance.one_of(MISSING).replace('C', &c.to_string()).replace('M', &m.to_string()).into_bytes(),
        1 => said(too_many(chance, c, m)),
        2 => said(chance.one_of(&[(c - 1, m), (c, m - 1), (0, m), (c, 0), (0, 0)])),
        3 => {
            let mut counts = said((c, m));
            // before the first space it would be the shorthand's
            let at = 1 + chance.below(counts.len());
            counts.insert(at, chance.one_of(b"ANOeox+-.,/:;_ \t\r\n\0\xB0\xB1\xFF"));
            counts
        }
        _ => {
            match chance.below(3) {
                0 => pair.master.push(chance.one_of(&[0, 1, LF])),
                1 => pair.master.truncate(chance.below(pair.master.len())),
                _ => pair.correction.push(0),
            }
            said((c, m))
        }
    };
    behind(chance, &counts, &pair, refused(NOTHING_HANDED))
}

/// More than `c` and `m`, by one or by so much that cut to 16, 32 or 64 bits they, or their sum, would be right.
fn too_many(chance: &mut Chance, c: u128, m: u128) -> (u128, u128) {
    let cut = 1 << chance.one_of(&[16, 32, 64]);
    let all = c + m;
    chance.one_of(&[(c + 1, m), (c, m + 1), (c + cut, m), (c, m + cut), (cut - 1, all + 1), (all + 1, cut - 1), (c * 10, m * 10)])
}

/// What stands in the place of the counts C and M.
const MISSING: &[&str] = &["", " ", "  ", " C", " C ", "  M", " CM", " C\tM", "\tC M", " C M ", "  C M", " C  M", " C M 0", " M"];

/// How long the correction is, and the master, where one of them is long; 0 is a short one. No input has more rows than the program reads.
const LENGTHS: &[[usize; 2]] = &[
    [MOST_ROWS, 0],
    [0, MOST_ROWS],
    [MOST_ROWS + 1, 0],
    [0, MOST_ROWS + 1],
    [MOST_ROWS, MOST_ROWS],
    [MOST_ROWS + 1, MOST_ROWS],
    [MOST_ROWS, MOST_ROWS + 1],
    [MOST_ROWS - 1, 0],
    [0, MOST_ROWS - 1],
];

/// One tape, or both, of as many rows as are taken, of one fewer or of one more.
fn long(chance: &mut Chance, lengths: [usize; 2]) -> Listed {
    let plan = programs::plan(chance);
    let tapes = lengths.map(|length| match length {
        0 => programs::tape(chance, &plan, 5),
        _ => programs::long_tape(chance, &plan, length),
    });
    let made = Made::of(plan, tapes);
    let (pair, known) = match chance.below(5) {
        // not two long ones: damage may make them longer than the program reads
        0 if lengths.contains(&0) => {
            let which = chance.one_of(&HARMED);
            (made.harmed(chance, which).0, None)
        }
        1 if lengths.contains(&0) => {
            let (pair, known) = made.other_specification(chance);
            (pair, refused(known))
        }
        _ if lengths.contains(&(MOST_ROWS + 1)) => (made.pair.clone(), refused(Some((4, MOST_ROWS as u64)))),
        _ => (made.pair.clone(), Some(text_of(&made))),
    };
    counted(chance, &pair, known)
}

#[cfg(test)]
mod tests {
    use super::*;
    use crate::corrected::corrected;
    use crate::trial::inputs::readable;

    #[test]
    fn inputs_are_answered_as_they_were_made() {
        let [mut sound, mut refused] = [0; 2];
        for Listed { input, profile, known } in listings(7, 4_000) {
            let Some(known) = known else { continue };
            let found = corrected(&input, profile.as_deref().unwrap_or(b""));
            assert_eq!(found, known, "{}", readable(&input));
            *(if known.starts_with("refused") { &mut refused } else { &mut sound }) += 1;
        }
        assert!(sound > 800 && refused > 800, "{sound} {refused}");
    }
}
