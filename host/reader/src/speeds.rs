//! Coded speeds. In 3 to 5 digits, the "magic three": the first digit is d, the others are m, the speed is 0.m times
//! 10^(d-3). In two digits, the preferred numbers of a table.

use crate::Refusal;
use std::cmp::Reverse;
use std::fmt;

/// A speed. Only codes of two digits have a stop and a rapid.
#[derive(Clone, Copy, Debug, PartialEq, Eq)]
pub enum Speed {
    /// code 00; a rate of zero is none
    Stop,
    /// code 99
    Rapid,
    /// in units of a ten-millionth
    Rate(u64),
}

/// As the listing and the lines have it.
impl fmt::Display for Speed {
    fn fmt(&self, to: &mut fmt::Formatter<'_>) -> fmt::Result {
        match self {
            Speed::Stop => to.write_str("stop"),
            Speed::Rapid => to.write_str("rapid"),
            Speed::Rate(units) => write!(to, "{units}"),
        }
    }
}

/// The least rate of the magic three but zero, in units, and the first above all of them.
const LEAST: u64 = 1_000;
const ABOVE: u64 = 10_000_000_000_000;

/// The codes of two digits that are no rate's.
const STOP: u64 = 0;
const RAPID: u64 = 99;

/// The rates of codes 01 to 98 in hundredths, as document 004 has them in A.1.2: its five columns from top to bottom.
#[rustfmt::skip]
const PREFERRED: [u64; 98] = [
    112, 125, 140, 160, 180, 200, 224, 250, 280, 315, 355, 400, 450, 500, 560, 630, 710, 800, 900,

    1_000, 1_120, 1_250, 1_400, 1_600, 1_800, 2_000, 2_240, 2_500, 2_800,
    3_150, 3_550, 4_000, 4_500, 5_000, 5_600, 6_300, 7_100, 8_000, 9_000,

    10_000, 11_200, 12_500, 14_000, 16_000, 18_000, 20_000, 22_400, 25_000, 28_000,
    31_500, 35_500, 40_000, 45_000, 50_000, 56_000, 63_000, 71_000, 80_000, 90_000,

    100_000, 112_000, 125_000, 140_000, 160_000, 180_000, 200_000, 224_000, 250_000, 280_000,
    315_000, 355_000, 400_000, 450_000, 500_000, 560_000, 630_000, 710_000, 800_000, 900_000,

    1_000_000, 1_120_000, 1_250_000, 1_400_000, 1_600_000, 1_800_000, 2_000_000, 2_240_000, 2_500_000, 2_800_000,
    3_150_000, 3_550_000, 4_000_000, 4_500_000, 5_000_000, 5_600_000, 6_300_000, 7_100_000, 8_000_000,
];
const HUNDREDTH: u64 = 100_000;

/// The speed that the `digits` digits of `code` mean.
pub fn speed_of(digits: u32, code: u64) -> Result<Speed, Refusal> {
    judge_length(digits)?;
    if code >= 10u64.pow(digits) {
        return Err(Refusal::new(21, 0));
    }
    meaning(digits, code).ok_or(Refusal::new(13, 0))
}

/// Whether there are codes of that length.
pub fn judge_length(digits: u32) -> Result<(), Refusal> {
    (2..=5).contains(&digits).then_some(()).ok_or(Refusal::new(21, 0))
}

/// What a code known to have 2 to 5 `digits` means; nothing where only the second digit bars it.
pub fn meaning(digits: u32, code: u64) -> Option<Speed> {
    match (digits, code) {
        (2, STOP) => Some(Speed::Stop),
        (2, RAPID) => Some(Speed::Rapid),
        (2, _) => Some(Speed::Rate(preferred(code))),
        _ => magic_three(digits, code).map(Speed::Rate),
    }
}

/// The units of a code of two digits that is a rate's.
fn preferred(code: u64) -> u64 {
    PREFERRED[code as usize - 1] * HUNDREDTH
}

/// The units of a code of 3 to 5 `digits`.
fn magic_three(digits: u32, code: u64) -> Option<u64> {
    let one = 10u64.pow(digits - 1);
    let (d, m) = ((code / one) as u32, code % one);
    if code == 0 {
        Some(0)
    } else if m < one / 10 {
        None
    } else {
        // 0.m has digits-1 places: m * 10^(d-3) * 10^7 / 10^(digits-1)
        Some(m * 10u64.pow(d + 5 - digits))
    }
}

/// The code of `digits` digits for `speed`: the nearest of two digits, or the one that it is rounded to.
pub fn code_of(digits: u32, speed: Speed) -> Result<u64, Refusal> {
    judge_length(digits)?;
    let code = match (digits, speed) {
        (2, Speed::Stop) => Some(STOP),
        (2, Speed::Rapid) => Some(RAPID),
        (2, Speed::Rate(units)) => nearest(units),
        (_, Speed::Rate(units)) => rounded(digits, units),
        _ => None,
    };
    code.ok_or(Refusal::new(20, 0))
}

/// The code of two digits whose rate is nearest, the larger of two equally near; none for a rate beyond the table.
fn nearest(units: u64) -> Option<u64> {
    let (least, greatest) = (STOP + 1, RAPID - 1);
    if !(preferred(least)..=preferred(greatest)).contains(&units) {
        return None;
    }
    (least..=greatest).min_by_key(|&code| (preferred(code).abs_diff(units), Reverse(code)))
}

/// The code of 3 to 5 `digits`, rounded a half upwards before d is found.
fn rounded(digits: u32, units: u64) -> Option<u64> {
    if units == 0 {
        return Some(0);
    }
    // rounding never crosses this line downwards, and below it nothing overflows
    if units >= ABOVE {
        return None;
    }
    let one = 10u64.pow(digits - 1);
    let mut last = 1;
    while units / last >= one {
        last *= 10;
    }
    let rounded = (units + last / 2) / last * last;
    if !(LEAST..ABOVE).contains(&rounded) {
        return None;
    }
    let mut d = 0;
    let mut weight = 10u64.pow(5 - digits);
    while rounded / weight >= one {
        weight *= 10;
        d += 1;
    }
    Some(d * one + rounded / weight)
}

/// The code of `digits` digits that means exactly `speed`, if there is one.
pub fn exact_code(digits: u32, speed: Speed) -> Option<u64> {
    code_of(digits, speed).ok().filter(|&code| meaning(digits, code) == Some(speed))
}

#[cfg(test)]
mod tests {
    use super::*;
    use Speed::{Rapid, Rate, Stop};

    fn refused<T>(number: u32) -> Result<T, Refusal> {
        Err(Refusal::new(number, 0))
    }

    #[test]
    fn codes_to_speeds() {
        assert_eq!(speed_of(3, 717), Ok(Rate(17_000_000_000)));
        assert_eq!(speed_of(3, 46), Ok(Rate(4_600)));
        assert_eq!(speed_of(3, 100), refused(13));
        assert_eq!(speed_of(3, 5), refused(13));
        assert_eq!(speed_of(3, 999), Ok(Rate(9_900_000_000_000)));
        assert_eq!(speed_of(3, 1000), refused(21));
        assert_eq!(speed_of(1, 1), refused(21));
        assert_eq!(speed_of(6, 10), refused(21));
        assert_eq!(speed_of(u32::MAX, u64::MAX), refused(21));
        assert_eq!(speed_of(5, 1000), Ok(Rate(1_000)));
        assert_eq!(speed_of(4, 5153), Ok(Rate(153_000_000)));
        // all zeros of the magic three are no stop
        for digits in 3..=5 {
            assert_eq!(speed_of(digits, 0), Ok(Rate(0)));
        }
    }

    #[test]
    fn speeds_to_codes() {
        assert_eq!(code_of(4, Rate(152_500_000)), Ok(5153));
        assert_eq!(code_of(3, Rate(99_600_000)), Ok(510));
        assert_eq!(code_of(3, Rate(995)), Ok(10));
        assert_eq!(code_of(3, Rate(994)), refused(20));
        assert_eq!(code_of(3, Rate(9_949_999_999_999)), Ok(999));
        assert_eq!(code_of(3, Rate(9_950_000_000_000)), refused(20));
        assert_eq!(code_of(5, Rate(0)), Ok(0));
        assert_eq!(code_of(5, Rate(u64::MAX)), refused(20));
        assert_eq!(code_of(5, Rate(999)), refused(20));
        for speed in [Stop, Rapid] {
            for digits in [3, 4, 5] {
                assert_eq!(code_of(digits, speed), refused(20));
            }
        }
        // the length is judged first
        for speed in [Stop, Rapid, Rate(0), Rate(u64::MAX)] {
            for digits in [0, 1, 6, u32::MAX] {
                assert_eq!(code_of(digits, speed), refused(21));
            }
        }
    }

    #[test]
    fn codes_of_two_digits() {
        assert_eq!(speed_of(2, 0), Ok(Stop));
        assert_eq!(speed_of(2, 99), Ok(Rapid));
        assert_eq!(speed_of(2, 46), Ok(Rate(2_000_000_000)));
        assert_eq!(speed_of(2, 1), Ok(Rate(11_200_000)));
        assert_eq!(speed_of(2, 98), Ok(Rate(800_000_000_000)));
        assert_eq!(speed_of(2, 100), refused(21));
        // a zero second digit is as good as any other
        assert_eq!(speed_of(2, 20), Ok(Rate(100_000_000)));
    }

    #[test]
    fn the_rule_of_ten() {
        assert!(PREFERRED.is_sorted());
        for code in 1..=78 {
            assert_eq!(preferred(code + 20), 10 * preferred(code));
        }
    }

    #[test]
    fn the_nearest_preferred_number() {
        assert_eq!(code_of(2, Stop), Ok(0));
        assert_eq!(code_of(2, Rapid), Ok(99));
        assert_eq!(code_of(2, Rate(11_850_000)), Ok(2));
        assert_eq!(code_of(2, Rate(11_849_999)), Ok(1));
        assert_eq!(code_of(2, Rate(11_200_000)), Ok(1));
        assert_eq!(code_of(2, Rate(800_000_000_000)), Ok(98));
        for beyond in [0, 11_199_999, 800_000_000_001, u64::MAX] {
            assert_eq!(code_of(2, Rate(beyond)), refused(20));
        }
        for code in 1..98 {
            let halfway = (preferred(code) + preferred(code + 1)) / 2;
            assert_eq!(code_of(2, Rate(halfway)), Ok(code + 1));
            assert_eq!(code_of(2, Rate(halfway - 1)), Ok(code));
        }
    }

    #[test]
    fn every_code_comes_back() {
        for digits in 2..=5 {
            for code in 0..10u64.pow(digits) {
                if let Ok(speed) = speed_of(digits, code) {
                    assert_eq!(code_of(digits, speed), Ok(code));
                    assert_eq!(exact_code(digits, speed), Some(code));
                }
            }
        }
    }

    #[test]
    fn speeds_without_an_exact_code() {
        for units in [1, 999, 1_001, 17_280_000_000, 9_949_999_999_999, 10_000_000_000_000, u64::MAX] {
            assert_eq!(exact_code(3, Rate(units)), None);
        }
        assert_eq!(exact_code(5, Rate(17_280_000_000)), Some(71_728));
        assert_eq!(exact_code(6, Rate(1_000)), None);
        for units in [0, 11_199_999, 11_200_001, 11_850_000, 1_999_999_999, 800_000_000_001] {
            assert_eq!(exact_code(2, Rate(units)), None);
        }
        for digits in 3..=5 {
            assert_eq!(exact_code(digits, Stop), None);
            assert_eq!(exact_code(digits, Rapid), None);
        }
    }

    #[test]
    fn their_names() {
        assert_eq!([Stop, Rapid, Rate(90_000)].map(|speed| speed.to_string()), ["stop", "rapid", "90000"]);
    }
}
