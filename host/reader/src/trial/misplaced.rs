//! Shorthands with one slip in the order or form of their feeds and S, whose number and place are known from the making.
//!
//! Nothing here asks the reader: all before the item at fault is as in a sound shorthand.

use super::chance::Chance;
use super::profiles;
use super::programs::{self, Drawn, Made, Plan, Sketch, MARKS};
use crate::shorthand::DIMENSIONS;
use crate::specification::Specification;
use crate::Refusal;

/// A shorthand with a slip.
pub struct Slipped {
    /// the sound shorthand that it was made from
    pub plan: Plan,
    /// with its own text; a profile is not looked at
    pub specification: Specification,
    /// what it must be refused with
    pub refusal: Refusal,
}

/// Makes a slip and answers which item is at fault; none where the shorthand has nothing that can have it.
type Slip = fn(&mut Chance, &mut Sketch) -> Option<usize>;

/// The slips, with the number that each is refused with.
const SLIPS: &[(Slip, u32)] = &[
    (two_feeds_and_a_dimension, 2),
    (f_before_a_dimension, 2),
    (feed_of_no_dimension, 2),
    (feed_before_g2, 2),
    (feed_too_late, 2),
    (letter_twice, 2),
    (order_broken_behind_a_feed, 2),
    (feed_out_of_form, 2),
    (two_digits_of_e_or_d, 2),
    (two_digits_by_1057, 3),
];

/// A shorthand of either edition with one of the slips.
pub fn slipped(chance: &mut Chance) -> Slipped {
    let (slip, number) = chance.one_of(SLIPS);
    loop {
        let mut sketch = programs::sketch(chance);
        let plan = sketch.plan();
        if let Some(at) = slip(chance, &mut sketch) {
            // the text before the item, without its dot
            let place = sketch.text(at).len();
            let profile = profiles::any(chance, &plan);
            let specification = Specification { profile, ..sketch.plan().specification };
            return Slipped { plan, specification, refusal: Refusal::new(number, place) };
        }
    }
}

impl Sketch {
    fn dimensions(&self) -> Vec<usize> {
        (0..self.items.len()).filter(|&at| matches!(self.items[at].made, Made::Dimension { .. })).collect()
    }

    /// A dimension that another one follows, and that one.
    fn two_dimensions(&self, chance: &mut Chance) -> Option<(usize, usize)> {
        let all = self.dimensions();
        let pairs: Vec<(usize, usize)> = all.windows(2).map(|pair| (pair[0], pair[1])).collect();
        (!pairs.is_empty()).then(|| chance.one_of(&pairs))
    }

    /// An item of one of `letters` that is a speed.
    fn some_speed(&self, chance: &mut Chance, letters: &[u8]) -> Option<usize> {
        let fits = |item: &Drawn| letters.contains(&item.letter) && matches!(item.made, Made::Speed { .. });
        let all: Vec<usize> = (0..self.items.len()).filter(|&at| fits(&self.items[at])).collect();
        (!all.is_empty()).then(|| chance.one_of(&all))
    }

    /// A feed or S that may stand in such a shorthand.
    fn speed(&self, chance: &mut Chance, letter: u8) -> Drawn {
        programs::speed(chance, letter, self.edition == 2539)
    }

    /// Puts other bytes behind the item's letter.
    fn write(&mut self, at: usize, data: &str) {
        let item = &mut self.items[at];
        item.text = [&[item.letter], data.as_bytes()].concat();
    }

    fn take_out(&mut self, letters: &[u8]) {
        self.items.retain(|item| !letters.contains(&item.letter));
    }
}

/// Behind a dimension two feeds may stand, but then it is the last: the next one is at fault.
fn two_feeds_and_a_dimension(chance: &mut Chance, sketch: &mut Sketch) -> Option<usize> {
    sketch.take_out(b"ED");
    let (at, next) = sketch.two_dimensions(chance)?;
    let mut feeds = *b"ED";
    chance.shuffle(&mut feeds);
    for feed in feeds {
        sketch.items.insert(at + 1, sketch.speed(chance, feed));
    }
    Some(next + 2)
}

/// F stands behind the last dimension, so the one behind it is at fault, a feed of its own between them or not.
fn f_before_a_dimension(chance: &mut Chance, sketch: &mut Sketch) -> Option<usize> {
    sketch.take_out(b"F");
    let (at, next) = sketch.two_dimensions(chance)?;
    let place = chance.one_of(&[at + 1, next]);
    sketch.items.insert(place, sketch.speed(chance, b'F'));
    Some(next + 1)
}

/// A feed behind N or G2, and then a dimension.
fn feed_of_no_dimension(chance: &mut Chance, sketch: &mut Sketch) -> Option<usize> {
    let feed = chance.one_of(b"EDF");
    sketch.take_out(&[feed]);
    let first = *sketch.dimensions().first()?;
    sketch.items.insert(first, sketch.speed(chance, feed));
    Some(first + 1)
}

fn feed_before_g2(chance: &mut Chance, sketch: &mut Sketch) -> Option<usize> {
    let first = sketch.items.first()?.letter;
    let feed = chance.one_of(b"EDF");
    sketch.items.insert(0, sketch.speed(chance, feed));
    (first == b'G').then_some(1)
}

/// Behind S, T or M.
fn feed_too_late(chance: &mut Chance, sketch: &mut Sketch) -> Option<usize> {
    let feed = chance.one_of(b"EDF");
    sketch.take_out(&[feed]);
    let first = sketch.items.iter().position(|item| b"STM".contains(&item.letter))?;
    let at = some_place(chance, first + 1, sketch);
    sketch.items.insert(at, sketch.speed(chance, feed));
    Some(at)
}

/// A place for a further item, `first` or behind it.
fn some_place(chance: &mut Chance, first: usize, sketch: &Sketch) -> usize {
    first + chance.below(sketch.items.len() - first + 1)
}

/// A letter that is feed or dimension already, once more as either.
fn letter_twice(chance: &mut Chance, sketch: &mut Sketch) -> Option<usize> {
    let letter = chance.one_of(b"EEDDF");
    let first = sketch.items.iter().position(|item| item.letter == letter)?;
    let again = if letter == b'F' || chance.happens(1, 2) {
        sketch.speed(chance, letter)
    } else {
        programs::dimension(chance, letter, sketch.edition == 2539, MARKS)
    };
    let at = some_place(chance, first + 1, sketch);
    sketch.items.insert(at, again);
    Some(at)
}

/// Behind a dimension's own feed stands a dimension that is not behind it in the order.
fn order_broken_behind_a_feed(chance: &mut Chance, sketch: &mut Sketch) -> Option<usize> {
    sketch.take_out(b"ED");
    let (at, next) = sketch.two_dimensions(chance)?;
    let rank = DIMENSIONS.iter().position(|&letter| letter == sketch.items[at].letter)?;
    let earlier = chance.one_of(&DIMENSIONS[..=rank]);
    sketch.items[next] = programs::dimension(chance, earlier, sketch.edition == 2539, MARKS);
    let feed = chance.one_of(b"ED");
    sketch.items.insert(at + 1, sketch.speed(chance, feed));
    Some(next + 1)
}

/// E1, D6, F9; a mark before the digit; digits that are no dimension's either.
fn feed_out_of_form(chance: &mut Chance, sketch: &mut Sketch) -> Option<usize> {
    let at = sketch.some_speed(chance, b"EDF")?;
    let data = ["0", "1", "6", "7", "8", "9", "+2", "+3", "D4", "345", "030", "00", "0000", "3333"];
    sketch.write(at, chance.one_of(&data));
    Some(at)
}

/// E2 or D2, which no edition has.
fn two_digits_of_e_or_d(chance: &mut Chance, sketch: &mut Sketch) -> Option<usize> {
    let at = sketch.some_speed(chance, b"ED")?;
    sketch.write(at, "2");
    Some(at)
}

/// F2 or S2, which only 2539 has.
fn two_digits_by_1057(chance: &mut Chance, sketch: &mut Sketch) -> Option<usize> {
    let at = sketch.some_speed(chance, b"FS")?;
    sketch.write(at, "2");
    (sketch.edition == 1057).then_some(at)
}

#[cfg(test)]
mod tests {
    use super::*;

    #[test]
    fn slips_are_refused_where_they_were_made() {
        let chance = &mut Chance::new(6);
        let mut seen = [[0; 2]; 2];
        for _ in 0..20_000 {
            let Slipped { plan, specification, refusal } = slipped(chance);
            assert!(plan.specification.format().is_ok());
            let Specification { edition, shorthand, .. } = &specification;
            assert_eq!(specification.format(), Err(refusal), "{edition} {}", shorthand.escape_ascii());
            seen[usize::from(*edition == 2539)][usize::from(plan.layout.has_tabs())] += 1;
        }
        assert!(seen[0][1] > 5_000 && seen[1][0] > 5_000 && seen[1][1] > 5_000);
    }
}
