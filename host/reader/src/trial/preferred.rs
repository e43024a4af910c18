//! The preferred numbers of two-digit codes by the rule of ten, and rates near them whose codes are known from the making.
//!
//! Nothing here asks the reader, which has the whole table.

use super::chance::Chance;
use crate::speeds::Speed;

/// One decade of them in hundredths; code 00 would be the first.
const DECADE: [u64; 20] = [100, 112, 125, 140, 160, 180, 200, 224, 250, 280, 315, 355, 400, 450, 500, 560, 630, 710, 800, 900];

/// The codes of the least and of the greatest rate.
const LEAST: u64 = 1;
const GREATEST: u64 = 98;

/// What a code of two digits means.
pub(super) fn speed(code: u64) -> Speed {
    match code {
        LEAST..=GREATEST => Speed::Rate(rate(code)),
        0 => Speed::Stop,
        _ => Speed::Rapid,
    }
}

/// The units of a code from `LEAST` to `GREATEST`: code c+20 is ten times code c.
fn rate(code: u64) -> u64 {
    const HUNDREDTH: u64 = 100_000;
    DECADE[(code % 20) as usize] * 10u64.pow(code as u32 / 20) * HUNDREDTH
}

/// One of the hundred speeds, the edges often.
pub(super) fn some(chance: &mut Chance) -> Speed {
    let any = chance.below(100) as u64;
    speed(chance.one_of(&[0, LEAST, GREATEST, 99, any, any, any, any]))
}

/// A rate that no code means: beyond the table, beside a rate of it, halfway between two, or anywhere between them.
pub(super) fn missed(chance: &mut Chance) -> u64 {
    let code = LEAST + chance.number() % (GREATEST - LEAST);
    let (lower, upper) = (rate(code), rate(code + 1));
    match chance.below(8) {
        0 => chance.one_of(&[0, u64::MAX]),
        1 => rate(LEAST) - 1,
        2 => rate(GREATEST) + 1,
        3 => lower + 1,
        4 => upper - 1,
        5 => (lower + upper) / 2,
        _ => lower + 1 + chance.number() % (upper - lower - 1),
    }
}

/// Each rate of the table, halfway to the next, one unit beside either, and both ends of all numbers, with the code of the
/// nearest; none beyond the table.
pub(super) fn edges() -> Vec<(u64, Option<u64>)> {
    let mut edges = vec![(0, None), (u64::MAX, None)];
    for code in LEAST..=GREATEST {
        let own = rate(code);
        edges.push((own - 1, (code > LEAST).then_some(code)));
        edges.push((own, Some(code)));
        edges.push((own + 1, (code < GREATEST).then_some(code)));
    }
    for code in LEAST..GREATEST {
        let halfway = (rate(code) + rate(code + 1)) / 2;
        edges.extend([(halfway - 1, Some(code)), (halfway, Some(code + 1)), (halfway + 1, Some(code + 1))]);
    }
    edges
}

#[cfg(test)]
mod tests {
    use super::*;
    use crate::speeds::{code_of, exact_code, speed_of};

    #[test]
    fn the_reader_has_the_same_table() {
        for code in 0..100 {
            assert_eq!(speed_of(2, code), Ok(speed(code)));
        }
        for (units, code) in edges() {
            assert_eq!(code_of(2, Speed::Rate(units)).ok(), code);
        }
    }

    #[test]
    fn what_is_missed_has_no_exact_code() {
        let chance = &mut Chance::new(8);
        for _ in 0..10_000 {
            assert_eq!(exact_code(2, Speed::Rate(missed(chance))), None);
            assert!(exact_code(2, some(chance)).is_some());
        }
    }
}
