//! Splices and dressing: an accepted tape glued behind another, and where rows may be put in that say nothing.

use crate::reading::{self, Ends};
use crate::rows::punched;
use crate::shorthand::Format;
use crate::Refusal;

/// The rows of `t`, and those of `u` behind its head's LF. What refuses either of them refuses this.
pub fn glue(format: &Format, t: &[u8], u: &[u8]) -> Result<Vec<u8>, Refusal> {
    let [_, head] = [head_end(format, t)?, head_end(format, u)?];
    Ok([t, &u[head..]].concat())
}

/// The row just after the LF of the head of `tape`, which has to be accepted as a whole.
fn head_end(format: &Format, tape: &[u8]) -> Result<usize, Refusal> {
    let mut ends = Ends::default();
    reading::read(format, tape, &mut ends)?;
    Ok(ends.after[0])
}

/// Of each place before a row, and of the one behind the last, whether a control-out may be put in there: not from just
/// after a "(" to just before the ")" that closes it.
pub fn outside(rows: &[u8]) -> Vec<bool> {
    let mut places = vec![true];
    for &row in rows {
        let within = if places.ends_with(&[true]) { row == punched(b'(') } else { row != punched(b')') };
        places.push(!within);
    }
    places
}

#[cfg(test)]
mod tests {
    use super::*;
    use crate::reading::Block;
    use crate::rows::{CR, DEL, LF, MOST_ROWS, NUL};
    use crate::shorthand::Layout;
    use crate::specification::Specification;
    use crate::trial::chance::Chance;
    use crate::trial::damage;
    use crate::trial::inputs::readable;
    use crate::trial::programs::{self, Plan, Tape};
    use crate::trial::splicing::dress;

    /// "o" is NUL and "x" DEL.
    fn rows(text: &str) -> Vec<u8> {
        let row = |byte: u8| match byte {
            b'o' => punched(NUL),
            b'x' => punched(DEL),
            _ => punched(byte),
        };
        text.bytes().map(row).collect()
    }

    fn blocks(format: &Format, tape: &[u8]) -> Result<Vec<Block>, Refusal> {
        let mut blocks = Vec::new();
        reading::read(format, tape, &mut blocks).map(|()| blocks)
    }

    /// Plans of both editions and all layouts.
    fn plans(seed: u64, size: usize, mut each: impl FnMut(&mut Chance, &Plan, &Format)) {
        let chance = &mut Chance::new(seed);
        let mut seen = [0; 4];
        for _ in 0..size {
            let plan = programs::plan(chance);
            let format = plan.specification.format().unwrap();
            let newer = plan.specification.edition == 2539;
            let kind = match format.layout {
                Layout::Addresses => 0,
                Layout::Both => 1 + usize::from(newer),
                // 1057 has addresses always
                Layout::Tabs => 3,
            };
            seen[kind] += 1;
            each(chance, &plan, &format);
        }
        assert!(seen.iter().all(|&seen| seen > size / 50), "{seen:?}");
    }

    /// `put` before the row `at`.
    fn put_in(tape: &[u8], at: usize, put: &[u8]) -> Vec<u8> {
        [&tape[..at], put, &tape[at..]].concat()
    }

    /// The count under 2539 N3*, or number and place.
    fn counted(tape: &[u8]) -> Result<u64, (u32, u64)> {
        crate::count_blocks(&Specification::new(2539, "N3*", ""), tape).map_err(|refusal| (refusal.number, refusal.place))
    }

    fn numbers(tape: &[u8]) -> Vec<Option<u64>> {
        let format = Specification::new(2539, "N3*", "").format().unwrap();
        blocks(&format, tape).unwrap().iter().map(|block| block.opening.number()).collect()
    }

    #[test]
    fn the_worked_joint() {
        let format = Specification::new(2539, "N3*", "").format().unwrap();
        let [t, u] = [rows("%\nN001\no(A)"), rows("o%(B)\r\nxN002\n(C)")];
        let both = glue(&format, &t, &u).unwrap();
        assert_eq!(both, rows("%\nN001\no(A)xN002\n(C)"));
        assert_eq!(numbers(&both), [Some(1), Some(2)]);
        assert_eq!(glue(&format, &u, &t), Ok(rows("o%(B)\r\nxN002\n(C)N001\no(A)")));
        // of no blocks, and by itself
        assert_eq!(glue(&format, &t, &rows("(\n)%\n")), Ok(t.clone()));
        assert_eq!(glue(&format, &rows("%\n"), &t), Ok(t.clone()));
        assert_eq!(numbers(&glue(&format, &t, &t).unwrap()), [Some(1), Some(1)]);
        // what is refused is not glued
        assert_eq!(glue(&format, &t, &rows("%\nN01\n")), Err(Refusal::new(9, 5)));
        assert_eq!(glue(&format, &rows("%"), &t), Err(Refusal::new(8, 1)));
        // with its head a second tape is no splice
        assert_eq!(counted(&[t, u].concat()), Err((9, 12)));
    }

    #[test]
    fn the_worked_dressings() {
        for text in ["%\nN0(A(\nB)01\n", "%\nN0ox01\n", "o(A)x%\r(B)\nN001\n"] {
            assert_eq!(numbers(&rows(text)), [Some(1)], "{text:?}");
        }
        assert_eq!(counted(&rows("%\n(A(B)C)N001\n")), Err((7, 8)));
        assert_eq!(counted(&rows("(%)%\n")), Err((7, 1)));
        assert_eq!(counted(&rows("%\n(A:)\n")), Err((7, 4)));
        let places = |text: &str| outside(&rows(text)).iter().map(|&outside| if outside { '+' } else { '-' }).collect::<String>();
        assert_eq!(places(""), "+");
        assert_eq!(places("%\n(AC)N001\n"), "+++---++++++");
        assert_eq!(places("(A(B)()("), "+----+-+-");
        assert_eq!(places(")A"), "+++");
    }

    /// Two tapes, and three by either joint first.
    #[test]
    fn glued_tapes() {
        let mut all = 0;
        plans(11, 3_000, |chance, plan, format| {
            let [t, u, v] = [(); 3].map(|()| programs::tape(chance, plan, 4));
            let [tu, uv] = [(&t, &u), (&u, &v)].map(|(t, u)| glue(format, &t.rows, &u.rows).unwrap());
            assert_eq!(blocks(format, &tu), Ok([&t.blocks[..], &u.blocks].concat()), "{}", readable(&tu));
            let three = glue(format, &tu, &v.rows).unwrap();
            assert_eq!(glue(format, &t.rows, &uv).unwrap(), three);
            assert_eq!(blocks(format, &three), Ok([t.blocks, u.blocks, v.blocks].concat()), "{}", readable(&three));
            all += blocks(format, &three).unwrap().len();
        });
        assert!(all > 10_000, "{all}");
    }

    /// A damaged tape that is still accepted is glued as any other.
    #[test]
    fn worn_tapes_glued() {
        let [mut accepted, mut refused] = [0; 2];
        plans(12, 3_000, |chance, plan, format| {
            let Tape { rows: t, blocks: first } = programs::tape(chance, plan, 3);
            let mut u = programs::tape(chance, plan, 3).rows;
            damage::tape(chance, &mut u);
            match blocks(format, &u) {
                Err(refusal) => {
                    assert_eq!(glue(format, &t, &u), Err(refusal));
                    assert_eq!(glue(format, &u, &t), Err(refusal));
                    refused += 1;
                }
                Ok(second) => {
                    let both = [(&t, &u), (&u, &t)].map(|(t, u)| blocks(format, &glue(format, t, u).unwrap()));
                    assert_eq!(both[0], Ok([&first[..], &second].concat()));
                    assert_eq!(both[1], Ok([second, first].concat()));
                    accepted += 1;
                }
            }
        });
        assert!(accepted > 300 && refused > 300, "{accepted} {refused}");
    }

    /// NUL, DEL and a remark at every place where they may stand; of a remark within another nothing is said.
    #[test]
    fn dressed_at_every_row() {
        let remarks = ["()", "(A)", "((\n\ro x/N001(X+)"].map(rows);
        let [mut within, mut all] = [0; 2];
        plans(13, 2_000, |chance, plan, format| {
            let Tape { rows, blocks: due } = programs::tape(chance, plan, 2);
            let outside = outside(&rows);
            assert_eq!(outside.len(), rows.len() + 1);
            let remark = &remarks[chance.below(3)];
            for (at, &outside) in outside.iter().enumerate() {
                let mut puts = vec![vec![punched(NUL)], vec![punched(DEL)]];
                puts.extend(outside.then(|| remark.clone()));
                for put in puts {
                    let dressed = put_in(&rows, at, &put);
                    assert_eq!(blocks(format, &dressed).as_ref(), Ok(&due), "{}", readable(&dressed));
                }
                within += usize::from(!outside);
                all += 1;
            }
        });
        assert!(within > 2_000 && all > 50_000, "{within} {all}");
    }

    /// Any number of dressings in any order; and a tape that is refused is refused however it is dressed.
    #[test]
    fn dressed_often() {
        let [mut accepted, mut refused] = [0; 2];
        plans(14, 6_000, |chance, plan, format| {
            let Tape { rows: mut tape, blocks: made } = programs::tape(chance, plan, 4);
            let mut due = Ok(made);
            match chance.below(3) {
                0 => {}
                1 => {
                    damage::tape(chance, &mut tape);
                    due = blocks(format, &tape);
                }
                _ => {
                    tape = programs::slipped_rows(chance, plan, 4);
                    due = blocks(format, &tape);
                }
            }
            let before = tape.clone();
            for times in [1, 2, 20] {
                dress(chance, &mut tape, times);
                let found = blocks(format, &tape);
                match &due {
                    Ok(due) => assert_eq!(found.as_ref(), Ok(due), "{}", readable(&tape)),
                    Err(_) => assert!(found.is_err(), "{}\n{}", readable(&before), readable(&tape)),
                }
            }
            *(if due.is_ok() { &mut accepted } else { &mut refused }) += 1;
        });
        assert!(accepted > 1_500 && refused > 1_500, "{accepted} {refused}");
    }

    /// Each short tape with a dressing at each row is accepted where it is without, with its blocks, and refused where it is not.
    #[test]
    fn short_tapes_dressed() {
        let format = Specification::new(2539, "N3*", "").format().unwrap();
        let more = rows("\n\r%No1()");
        let puts = ["o", "x", "()", "(A(\n)"].map(rows);
        let mut accepted = 0;
        for before in ["", "%\nN00", "%\nN001\n"] {
            for length in 0..=4 {
                for nth in 0..8usize.pow(length) {
                    let each = (0..length).map(|digit| more[nth / 8usize.pow(digit) % 8]);
                    let tape: Vec<u8> = rows(before).into_iter().chain(each).collect();
                    let due = blocks(&format, &tape).ok();
                    accepted += usize::from(due.is_some());
                    for (at, outside) in outside(&tape).into_iter().enumerate() {
                        for put in &puts[..if outside { 4 } else { 2 }] {
                            let dressed = put_in(&tape, at, put);
                            assert_eq!(blocks(&format, &dressed).ok(), due, "{}", readable(&dressed));
                        }
                    }
                }
            }
        }
        assert!(accepted > 50, "{accepted}");
    }

    /// Up to the most rows that a tape may have, and not beyond.
    #[test]
    fn at_the_limit() {
        let too_long = Err(Refusal::new(4, MOST_ROWS));
        let chance = &mut Chance::new(15);
        for _ in 0..4 {
            let plan = programs::plan(chance);
            let format = plan.specification.format().unwrap();
            let u = programs::tape(chance, &plan, 20);
            let behind = u.rows.len() - head_end(&format, &u.rows).unwrap();
            let mut t = programs::long_tape(chance, &plan, MOST_ROWS - behind);
            let due = [&t.blocks[..], &u.blocks].concat();
            let both = glue(&format, &t.rows, &u.rows).unwrap();
            assert_eq!(both.len(), MOST_ROWS);
            assert!(blocks(&format, &both).as_ref() == Ok(&due));
            t.rows.push(punched(NUL));
            let both = glue(&format, &t.rows, &u.rows).unwrap();
            assert_eq!(both.len(), MOST_ROWS + 1);
            assert!(blocks(&format, &both) == too_long);
            for put in ["o", "x", "(A)"].map(rows) {
                let mut tape = programs::long_tape(chance, &plan, MOST_ROWS - put.len());
                let outside = outside(&tape.rows);
                let places =
                    [0, chance.below(MOST_ROWS / 2), tape.rows.len()].map(|from| (from..).find(|&at| outside[at]).unwrap());
                for at in places {
                    let dressed = put_in(&tape.rows, at, &put);
                    assert_eq!(dressed.len(), MOST_ROWS);
                    assert!(blocks(&format, &dressed).as_ref() == Ok(&tape.blocks));
                }
                tape.rows.push(punched(NUL));
                for at in places {
                    assert!(blocks(&format, &put_in(&tape.rows, at, &put)) == too_long);
                }
            }
        }
    }

    /// The rows that the rules name.
    #[test]
    fn rows_that_say_nothing() {
        assert_eq!([NUL, DEL, b'(', b')', LF, CR].map(punched), [0, 255, 40, 169, 10, 141]);
    }
}
