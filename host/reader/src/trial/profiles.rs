//! Random profiles: ones that agree with a shorthand, ones with a fault whose number and place are known from the making,
//! and damaged ones.
//!
//! Nothing here asks the reader.

use super::chance::Chance;
use super::damage;
use super::programs::{Made, Plan};
use crate::Refusal;

/// A profile in its parts.
pub(super) struct General {
    /// those before R or D
    letters: [u8; 3],
    angular: Option<u8>,
    digits: [usize; 3],
    /// whether one stands before the digits, and one behind them
    spaces: [bool; 2],
    /// by 2539
    last: Option<u8>,
}

impl General {
    /// One that agrees with the shorthand of `plan`; none where that has more dimensions than a digit can say.
    pub fn drawn(chance: &mut Chance, plan: &Plan) -> Option<General> {
        let general = General::near(chance, plan);
        (positions(plan) <= 9).then_some(general)
    }

    /// One that agrees but, it may be, for the number of dimensions.
    fn near(chance: &mut Chance, plan: &Plan) -> General {
        let newer = plan.specification.edition == 2539;
        let ways: &[u8] = match (plan.items.is_empty(), plan.layout.has_tabs()) {
            (true, _) => b"ATS",
            (_, true) => b"TTS",
            (_, false) => b"A",
        };
        let letters = if newer {
            [chance.one_of(b"PL"), chance.one_of(ways), b'M']
        } else {
            [b'I', chance.one_of(b"PL"), chance.one_of(b"MI")]
        };
        let angular = has_angular(plan).then(|| chance.one_of(b"RD"));
        let digits = digits(chance, positions(plan).min(9));
        let spaces = [chance.happens(1, 3), chance.happens(1, 3)];
        let fitting: Vec<u8> = b"AIB".iter().copied().filter(|&last| fits(last, plan)).collect();
        let last = newer.then(|| chance.one_of(&fitting));
        General { letters, angular, digits, spaces, last }
    }

    /// Whether words have addresses under it: not under T, which only 2539 has.
    pub fn has_addresses(&self) -> bool {
        self.letters[1] != b'T'
    }

    pub fn text(&self) -> Vec<u8> {
        let [before, behind] = self.spaces.map(|space| space.then_some(b' '));
        let mut text = self.letters.to_vec();
        text.extend(self.angular);
        text.extend(before);
        text.extend(self.digits.map(|digit| b'0' + digit as u8));
        text.extend(behind);
        text.extend(self.last);
        text
    }
}

/// Three digits as they have to be, with `second` between the others.
fn digits(chance: &mut Chance, second: usize) -> [usize; 3] {
    [second + chance.below(10 - second), second, chance.below(second + 1)]
}

/// The letters and marks of the dimensions.
fn dimensions(plan: &Plan) -> impl Iterator<Item = (u8, Option<u8>)> + '_ {
    plan.items.iter().filter_map(|&(letter, made)| match made {
        Made::Dimension { mark, .. } => Some((letter, mark)),
        _ => None,
    })
}

/// How many dimensions there are but I, J and K.
fn positions(plan: &Plan) -> usize {
    dimensions(plan).filter(|(letter, _)| !b"IJK".contains(letter)).count()
}

fn has_angular(plan: &Plan) -> bool {
    dimensions(plan).any(|(letter, _)| b"ABCDE".contains(&letter))
}

/// Whether the marks are as the last letter says.
fn fits(last: u8, plan: &Plan) -> bool {
    match last {
        b'A' => dimensions(plan).all(|(_, mark)| mark != Some(b'D')),
        b'I' => dimensions(plan).all(|(_, mark)| mark == Some(b'D')),
        _ => true,
    }
}

/// Breaks a rule of agreement in a profile; none where the shorthand has nothing that can break it.
type Slip = fn(&mut Chance, &Plan, &mut General) -> Option<()>;

const SLIPS: &[Slip] =
    &[angular_not_as_due, dots_not_as_said, other_count, third_above_second, second_above_first, marks_not_as_said];

fn angular_not_as_due(chance: &mut Chance, plan: &Plan, general: &mut General) -> Option<()> {
    general.angular = (!has_angular(plan)).then(|| chance.one_of(b"RD"));
    Some(())
}

fn dots_not_as_said(chance: &mut Chance, plan: &Plan, general: &mut General) -> Option<()> {
    let newer = plan.specification.edition == 2539;
    general.letters[1] = if plan.layout.has_tabs() { b'A' } else { chance.one_of(b"TS") };
    (newer && !plan.items.is_empty()).then_some(())
}

/// A number that is not that of the dimensions, or of more than are to be counted: I, J and K, or feeds E and D.
fn other_count(chance: &mut Chance, plan: &Plan, general: &mut General) -> Option<()> {
    let feeds = plan.items.iter().filter(|(letter, made)| b"ED".contains(letter) && matches!(made, Made::Speed { .. }));
    let any = chance.below(10);
    let second = chance.one_of(&[any, dimensions(plan).count(), positions(plan) + feeds.count()]);
    general.digits = digits(chance, second.min(9));
    (second <= 9 && second != positions(plan)).then_some(())
}

fn third_above_second(chance: &mut Chance, _: &Plan, general: &mut General) -> Option<()> {
    let second = general.digits[1];
    general.digits[2] = (second < 9).then(|| second + 1 + chance.below(9 - second))?;
    Some(())
}

fn second_above_first(chance: &mut Chance, _: &Plan, general: &mut General) -> Option<()> {
    let second = general.digits[1];
    general.digits[0] = (second > 0).then(|| chance.below(second))?;
    Some(())
}

fn marks_not_as_said(chance: &mut Chance, plan: &Plan, general: &mut General) -> Option<()> {
    let wrong: Vec<u8> = b"AI".iter().copied().filter(|&last| !fits(last, plan)).collect();
    let last = general.last.as_mut()?;
    *last = (!wrong.is_empty()).then(|| chance.one_of(&wrong))?;
    Some(())
}

/// A profile with one rule of agreement broken.
fn disagreeing(chance: &mut Chance, plan: &Plan) -> General {
    loop {
        let mut general = General::near(chance, plan);
        let slip = chance.one_of(SLIPS);
        if slip(chance, plan, &mut general).is_some() {
            return general;
        }
    }
}

/// Takes a profile out of form and says at which byte.
fn put_out_of_form(chance: &mut Chance, text: &mut Vec<u8>) -> usize {
    let strange = chance.one_of(b"XNKapt.*-+,\t\x0D\x7F\xC9\xB0");
    let space = text.iter().position(|&byte| byte == b' ');
    let (at, byte) = match (chance.below(5), space) {
        (0, _) => {
            // the space behind the digits may go in 1057
            let needed = text.trim_ascii_end().len();
            text.truncate(1 + chance.below(needed - 1));
            return text.len();
        }
        (1, _) => {
            let at = chance.below(text.len());
            text[at] = strange;
            return at;
        }
        (2, _) => (chance.below(text.len() + 1), strange),
        (3, Some(space)) => (space + 1, b' '),
        _ => (text.len(), chance.one_of(b"AIBMRD07")),
    };
    text.insert(at, byte);
    at
}

/// A profile that is refused under the shorthand of `plan`, and what it is refused with: 22 whether it would agree or not.
pub(super) fn faulty(chance: &mut Chance, plan: &Plan) -> (Vec<u8>, Refusal) {
    if chance.happens(1, 2) {
        return (disagreeing(chance, plan).text(), Refusal::new(23, 0));
    }
    let general = if chance.happens(1, 2) { General::near(chance, plan) } else { disagreeing(chance, plan) };
    let mut text = general.text();
    let place = put_out_of_form(chance, &mut text);
    (text, Refusal::new(22, place))
}

/// A profile near one that agrees, with bytes changed, put in or left out.
pub(super) fn damaged(chance: &mut Chance, plan: &Plan) -> Vec<u8> {
    let mut text = General::near(chance, plan).text();
    damage::profile(chance, &mut text);
    text
}

/// No profile, or any that is worth trying.
pub(super) fn any(chance: &mut Chance, plan: &Plan) -> Vec<u8> {
    match chance.below(8) {
        0..=3 => Vec::new(),
        4 | 5 => General::near(chance, plan).text(),
        6 => faulty(chance, plan).0,
        _ => damaged(chance, plan),
    }
}

#[cfg(test)]
mod tests {
    use super::*;
    use crate::shorthand::Layout;
    use crate::trial::programs;

    #[test]
    fn what_was_drawn_agrees() {
        let chance = &mut Chance::new(7);
        let mut seen = [0; 4];
        for _ in 0..20_000 {
            let plan = programs::plan(chance);
            let format = plan.specification.format();
            let profile = plan.specification.profile.escape_ascii();
            assert!(format.is_ok(), "{} {profile}", plan.specification.shorthand.escape_ascii());
            let layout = format.map(|format| format.layout);
            seen[match layout {
                _ if plan.specification.profile.is_empty() => 0,
                Ok(Layout::Addresses) => 1,
                Ok(Layout::Both) => 2,
                _ => 3,
            }] += 1;
        }
        assert!((9_000..11_000).contains(&seen[0]), "{seen:?}");
        assert!(seen[1..].iter().all(|&seen| seen > 1_500), "{seen:?}");
    }

    #[test]
    fn faults_are_refused_as_they_were_made() {
        let chance = &mut Chance::new(8);
        let mut seen = [[0; 2]; 2];
        for _ in 0..20_000 {
            let plan = programs::plan(chance);
            let mut specification = plan.specification.clone();
            let (profile, refusal) = faulty(chance, &plan);
            specification.profile = profile;
            assert_eq!(specification.format(), Err(refusal), "{}", specification.profile.escape_ascii());
            seen[usize::from(specification.edition == 2539)][usize::from(refusal.number == 23)] += 1;
        }
        assert!(seen.as_flattened().iter().all(|&seen| seen > 2_000), "{seen:?}");
    }

    /// Each rule is broken often, and what breaks it is no fault of any other.
    #[test]
    fn every_rule_is_broken() {
        let chance = &mut Chance::new(9);
        for (at, slip) in SLIPS.iter().enumerate() {
            let mut broken = 0;
            for _ in 0..2_000 {
                let plan = programs::plan(chance);
                let Some(mut general) = General::drawn(chance, &plan) else { continue };
                let sound = general.text();
                let made = slip(chance, &plan, &mut general);
                let mut specification = plan.specification;
                specification.profile = sound;
                assert!(specification.format().is_ok());
                specification.profile = general.text();
                if made.is_some() {
                    assert_eq!(specification.format(), Err(Refusal::new(23, 0)));
                    broken += 1;
                }
            }
            assert!(broken > 400, "slip {at}: {broken}");
        }
    }
}
