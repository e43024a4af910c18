//! Makes glued and dressed tapes: their blocks are those of the tapes that they are made of, or they are refused as these are.

use super::chance::Chance;
use super::lines::{block_reply, handed_back, make_sayable, Line, Nth, Posed, Reply};
use super::programs::{self, control_out, Plan};
use super::unnumbered;
use crate::reading::Block;
use crate::rows::{punched, DEL, NUL};
use crate::specification::Specification;
use crate::splices::{glue, outside};
use crate::Refusal;
use std::fmt;

/// How a tape was made.
#[derive(Clone, Copy, Debug, PartialEq, Eq, PartialOrd, Ord)]
pub enum How {
    /// of two tapes or more
    Glued,
    /// of one tape, with rows put in that say nothing
    Dressed,
    /// of two or more, and dressed
    GluedAndDressed,
    /// of one that is refused, with the same put in
    RefusedAndDressed,
    /// of one with a remark, and another put into that
    RemarkWithin,
}

impl fmt::Display for How {
    fn fmt(&self, to: &mut fmt::Formatter<'_>) -> fmt::Result {
        to.write_str(match self {
            How::Glued => "glued",
            How::Dressed => "dressed",
            How::GluedAndDressed => "glued and dressed",
            How::RefusedAndDressed => "refused and dressed",
            How::RemarkWithin => "with a remark within another",
        })
    }
}

/// A line on a glued or dressed tape.
pub struct Spliced {
    /// B or W
    pub line: Line,
    how: How,
    /// the answer as it is known from the making; none where the tape is just known to be refused
    made: Option<Reply>,
}

/// What was found of such a line.
pub struct Verdict {
    /// how the tape was made
    pub how: How,
    /// whether the answer is the one known from the making
    pub as_made: bool,
    /// that answer
    pub made: String,
}

impl Spliced {
    /// The reader's answer.
    pub(super) fn answer(&self) -> Option<Reply> {
        let mut reply = self.line.answer()?;
        let made = self.made.as_ref().map_or(" -> refused".into(), Reply::to_string);
        let as_made = if self.made.is_some() { reply.to_string() == made } else { reply.number != 0 };
        reply.spliced = Some(Verdict { how: self.how, as_made, made });
        Some(reply)
    }
}

/// A glued or dressed tape.
struct Made {
    specification: Specification,
    tape: Vec<u8>,
    how: How,
    /// its blocks, or what it is refused with, where that is known
    fate: Result<Vec<Block>, Option<Refusal>>,
}

/// `size` tapes; of each the count and one block.
pub fn tapes(seed: u64, size: usize) -> Vec<Posed> {
    let chance = &mut Chance::new(seed);
    (0..size).flat_map(|_| Made::drawn(chance).posed(chance)).collect()
}

impl Made {
    fn drawn(chance: &mut Chance) -> Made {
        match chance.below(10) {
            0..=2 => glued(chance),
            3..=5 => {
                let plan = programs::plan(chance);
                let tape = programs::tape(chance, &plan, 5);
                Made { specification: plan.specification, tape: tape.rows, how: How::Dressed, fate: Ok(tape.blocks) }
                    .dressed(chance)
            }
            6 | 7 => Made { how: How::GluedAndDressed, ..glued(chance) }.dressed(chance),
            8 => {
                let unnumbered::Slipped { specification, tape, .. } = unnumbered::slipped(chance);
                Made { specification, tape, how: How::RefusedAndDressed, fate: Err(None) }.dressed(chance)
            }
            _ => with_a_remark_within(chance),
        }
    }

    fn dressed(mut self, chance: &mut Chance) -> Made {
        let times = 1 + chance.one_of(&[0, 0, 1, 3, 30]);
        dress(chance, &mut self.tape, times);
        self
    }

    fn posed(self, chance: &mut Chance) -> [Posed; 2] {
        let Made { mut specification, tape, how, fate } = self;
        make_sayable(&mut specification);
        let there = fate.as_ref().map_or(0, |blocks| blocks.len());
        let n = chance.below(there + 1);
        let count = match &fate {
            Err(refusal) => refusal.map(Err),
            Ok(_) => Some(Ok(there as u64)),
        };
        let block = match fate {
            Err(refusal) => refusal.map(Err),
            Ok(mut blocks) => Some(if n < there { Ok(blocks.swap_remove(n)) } else { Err(Refusal::new(15, there)) }),
        };
        let posed = |line, made: Option<Reply>| {
            let known = made.as_ref().map(|made| (made.number, made.place));
            Posed { line: Line::Spliced(Box::new(Spliced { line, how, made })), known }
        };
        let nth = Nth { specification: specification.clone(), n: n as u64, tape: tape.clone() };
        [
            posed(Line::Count { specification, tape }, count.map(|count| handed_back(count, 0, |count| count.to_string()))),
            posed(Line::Block(nth), block.map(block_reply)),
        ]
    }
}

/// Two tapes or more, the joints made from the first one on or from the last.
fn glued(chance: &mut Chance) -> Made {
    let plan = programs::plan(chance);
    let pieces = chance.one_of(&[2, 2, 3, 3, 5]);
    let (rows, blocks): (Vec<_>, Vec<_>) = (0..pieces).map(|_| sound(chance, &plan)).unzip();
    let format = plan.specification.format().expect("a plan is sound");
    let both = |t: &[u8], u: &[u8]| glue(&format, t, u).expect("a tape of a plan is sound");
    let tape = if chance.happens(1, 2) {
        rows.into_iter().reduce(|t, u| both(&t, &u))
    } else {
        rows.into_iter().rev().reduce(|u, t| both(&t, &u))
    };
    let tape = tape.expect("there are tapes");
    Made { specification: plan.specification, tape, how: How::Glued, fate: Ok(blocks.concat()) }
}

fn sound(chance: &mut Chance, plan: &Plan) -> (Vec<u8>, Vec<Block>) {
    let tape = programs::tape(chance, plan, 3);
    (tape.rows, tape.blocks)
}

/// Puts `times` NUL, DEL and control-outs in, each anywhere that it may stand, also among those before it.
pub(crate) fn dress(chance: &mut Chance, rows: &mut Vec<u8>, times: usize) {
    for _ in 0..times {
        let anywhere = chance.below(rows.len() + 1);
        match chance.below(4) {
            0 => rows.insert(anywhere, punched(NUL)),
            1 => rows.insert(anywhere, punched(DEL)),
            _ => {
                let at = some_place_outside(chance, rows);
                rows.splice(at..at, control_out(chance));
            }
        }
    }
}

fn some_place_outside(chance: &mut Chance, rows: &[u8]) -> usize {
    let outside = outside(rows);
    let places: Vec<usize> = (0..=rows.len()).filter(|&at| outside[at]).collect();
    chance.one_of(&places)
}

/// A remark within another: the first ")" closes the outer one, and the second has nothing to close.
fn with_a_remark_within(chance: &mut Chance) -> Made {
    let plan = programs::plan(chance);
    let (mut tape, _) = sound(chance, &plan);
    let at = some_place_outside(chance, &tape);
    let mut outer = control_out(chance);
    let within = 1 + chance.below(outer.len() - 1);
    // behind the inner one nothing may open
    outer[within..].iter_mut().filter(|row| **row == punched(b'(')).for_each(|row| *row = punched(b'A'));
    outer.splice(within..within, control_out(chance));
    let refusal = Refusal::new(7, at + outer.len() - 1);
    tape.splice(at..at, outer);
    Made { specification: plan.specification, tape, how: How::RemarkWithin, fate: Err(Some(refusal)) }
}

#[cfg(test)]
mod tests {
    use super::*;
    use std::collections::BTreeMap;

    #[test]
    fn tapes_are_answered_as_they_were_made() {
        let mut seen: BTreeMap<How, usize> = BTreeMap::new();
        for Posed { line, known } in tapes(10, 3_000) {
            let reply = line.answer().unwrap();
            let verdict = reply.spliced.as_ref().unwrap();
            assert!(verdict.as_made, "{}{reply}, made{}", line.text().escape_ascii(), verdict.made);
            assert!(known.is_none_or(|known| known == (reply.number, reply.place)));
            *seen.entry(verdict.how).or_default() += 1;
        }
        assert_eq!(seen.len(), 5);
        assert!(seen.values().all(|&seen| seen > 400), "{seen:?}");
    }

    /// An answer that is not as it was made is noticed, whatever number and place are.
    #[test]
    fn other_answers() {
        let nth = |n| {
            let tape = "%\nN001\nN002\n".bytes().map(punched).collect();
            Line::Block(Nth { specification: Specification::new(2539, "N3*", ""), n, tape })
        };
        let as_made = |made| Spliced { line: nth(0), how: How::Glued, made }.answer().unwrap().spliced.unwrap().as_made;
        assert!(as_made(nth(0).answer()));
        assert!(!as_made(nth(1).answer()));
        assert!(!as_made(nth(2).answer()));
        assert!(!as_made(None));
    }
}
