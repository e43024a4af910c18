//! Lines of two letters: a damaged tape saved.

use super::indexed::{firsts_text, MOST_PLACES};
use super::inputs::lent;
use super::lines::{asked, handed_back, judged, parts_text, rows_text, spelt, Line, Reply};
use crate::rows::{punched, NUL};
use crate::salvage::{salvage, Lists};
use crate::specification::Specification;
use crate::Refusal;

/// The most rows of a tape that is saved.
pub(super) const MOST_SAVED: usize = 4_000;

/// SV: a tape saved.
pub struct Saved {
    /// what the tape is judged by
    pub specification: Specification,
    /// the lists
    pub room: Room,
    /// the tape's rows
    pub tape: Vec<u8>,
}

/// Three lent lists.
#[derive(Clone, Copy)]
pub struct Room {
    /// how many places those of the first rows, the lengths and the numbers have
    pub places: [usize; 3],
    /// the first place's old content in all of them; each further one is one more, as of a buffer
    pub first: u8,
}

/// A salvage as it was done: the answer, and tape and lists after it.
pub(super) struct Done {
    pub answer: Result<u64, Refusal>,
    pub tape: Vec<u8>,
    pub lists: [Vec<u64>; 3],
}

impl Room {
    fn text(&self) -> String {
        match self.places {
            [all, second, third] if [all; 2] == [second, third] => all.to_string(),
            [first, second, third] if second == third => format!("{first},{second}"),
            [first, second, third] => format!("{first},{second},{third}"),
        }
    }

    /// The lists as they are lent.
    pub(super) fn lent(&self) -> [Vec<u64>; 3] {
        self.places.map(|places| lent(places, self.first).into_iter().map(u64::from).collect())
    }

    /// How many entries there is room for.
    pub(super) fn least(&self) -> usize {
        self.places.into_iter().fold(usize::MAX, usize::min)
    }
}

impl Saved {
    /// The line as it is asked.
    pub(super) fn text(&self) -> Vec<u8> {
        let Saved { specification, room, tape } = self;
        judged("SV", specification, &format!("{} {} {}", room.text(), room.first, asked(tape)))
    }

    /// The tape saved by the reader.
    pub(super) fn done(&self) -> Done {
        let mut tape = self.tape.clone();
        let mut lists = self.room.lent();
        let [firsts, lengths, numbers] = &mut lists;
        let salvage = |format| salvage(&format, &mut tape, &mut Lists { firsts, lengths, numbers });
        let answer = self.specification.format().and_then(salvage);
        Done { answer, tape, lists }
    }

    /// The reader's answer.
    pub(super) fn answer(&self) -> Reply {
        let Done { answer, tape, lists } = self.done();
        let losses = answer.as_ref().ok().map(|&count| lists[2][..count as usize].to_vec());
        let [firsts, lengths, numbers] = lists.map(|list| firsts_text(&list));
        let others = [rows_text(&tape), firsts, lengths, numbers];
        let mut reply = handed_back(answer, 0, |count| parts_text(count.to_string(), &others));
        reply.losses = losses;
        reply
    }
}

/// Parts that are missing or empty, lists at their edges, as many losses as a list has places, and the longest tape.
pub(super) fn edges() -> Vec<Line> {
    let saved = |places, tape: Vec<u8>| {
        let specification = Specification::new(2539, "N3*", "");
        Line::Saved(Box::new(Saved { specification, room: Room { places, first: 7 }, tape }))
    };
    let rows = |text: &str| -> Vec<u8> { text.bytes().map(punched).collect() };
    let one_lost = |places| saved(places, rows("%\nN01\n"));
    let run = |ends| rows(&format!("%\n{}", "\n".repeat(ends)));
    let mut blank = rows("%\n");
    blank.resize(MOST_SAVED, NUL);
    let mut lines = vec![
        spelt("SV 2539 N3*", saved([0; 3], rows(""))),
        spelt("SV 2539 N3* 0 7", saved([0; 3], rows(""))),
        spelt("SV 2539 N3* 2 7", saved([2; 3], rows(""))),
        spelt("SV 2539 N3* 2 7 %~", saved([2; 3], rows("%\n"))),
        spelt("SV 2539 N3*|| 2 7 %~N01~", one_lost([2; 3])),
        spelt("SV 2539 N3*  7 %~N01~", one_lost([0; 3])),
        spelt("SV 2539 N3* 2,1 7 %~N01~", one_lost([2, 1, 1])),
        spelt("SV 2539 N3* 2,1,1 7 %~N01~", one_lost([2, 1, 1])),
        spelt("SV 2539 N3* 1,2,3 7 %~N01~", one_lost([1, 2, 3])),
        spelt("SV 2539 N3* 3,2,1,0 7 %~N01~", one_lost([3, 2, 1])),
        spelt("SV 2539 N3* 002,01 7 %~N01~", one_lost([2, 1, 1])),
        spelt("SV 2539 N3* 2, 7 %~N01~", one_lost([2, 0, 0])),
        spelt("SV 2539 N3* ,2 7 %~N01~", one_lost([0, 2, 2])),
        spelt("SV 2539 N3* 2,1, 7 %~N01~", one_lost([2, 1, 0])),
        spelt("SV 2539 N3* 2,,1 7 %~N01~", one_lost([2, 0, 1])),
        spelt("SV 2539 N3* 101 7 %~N01~", one_lost([MOST_PLACES; 3])),
        spelt("SV 2539 N3* 1,101 7 %~N01~", one_lost([1, MOST_PLACES, MOST_PLACES])),
        spelt("SV 2539 N3* 3,1,18446744073709551615 7 %~N01~", one_lost([3, 1, MOST_PLACES])),
        spelt("SV 2539 N3* 1 263 %~N01~", one_lost([1; 3])),
        saved([1; 3], blank),
        saved([MOST_PLACES; 3], run(MOST_SAVED - 2)),
    ];
    for losses in [MOST_PLACES - 1, MOST_PLACES, MOST_PLACES + 1] {
        lines.extend([MOST_PLACES - 1, MOST_PLACES].map(|least| saved([MOST_PLACES, MOST_PLACES, least], run(losses))));
    }
    lines
}

#[cfg(test)]
mod tests {
    use super::*;

    /// What is written for a line.
    fn written(shorthand: &str, places: [usize; 3], first: u8, tape: &[u8]) -> String {
        let specification = Specification::new(2539, shorthand, "");
        let saved = Saved { specification, room: Room { places, first }, tape: tape.to_vec() };
        format!("{}{}", String::from_utf8(saved.text()).unwrap(), saved.answer())
    }

    fn rows(text: &str) -> Vec<u8> {
        text.bytes().map(punched).collect()
    }

    #[test]
    fn lines_of_saved_tapes() {
        let tape = rows("%\nN001\nN0X2\nN003\n");
        let saved = |places| written("N3*", places, 254, &tape);
        let asked = |places: &str| format!("SV 2539 N3* {places} 254 %~N001~N0X2~N003~ -> ");
        let left = "%~N001~`````N003~";
        assert_eq!(saved([1; 3]), asked("1") + &format!("0 0 1 {left} 7 5 9"));
        assert_eq!(saved([3; 3]), asked("3") + &format!("0 0 1 {left} 7,255,0 5,255,0 9,255,0"));
        assert_eq!(saved([2, 1, 1]), asked("2,1") + &format!("0 0 1 {left} 7,255 5 9"));
        assert_eq!(saved([1, 1, 2]), asked("1,1,2") + &format!("0 0 1 {left} 7 5 9,255"));
        assert_eq!(saved([0; 3]), asked("0") + "24 1 0 %~N001~N0X2~N003~ . . .");
        assert_eq!(saved([2, 2, 0]), asked("2,2,0") + "24 1 0 %~N001~N0X2~N003~ 254,255 254,255 .");
        assert_eq!(written("N3*", [0; 3], 7, &rows("%\nN001\n")), "SV 2539 N3* 0 7 %~N001~ -> 0 0 0 %~N001~ . . .");
        assert_eq!(written("N3*", [1; 3], 65, &rows("")), "SV 2539 N3* 1 65  -> 8 0 0 65 65 65");
        assert_eq!(written("N2*", [1; 3], 65, &rows("%\n\n")), "SV 2539 N2* 1 65 %~~ -> 2 0 0 %~~ 65 65 65");
        let odd = [&rows("%\nN001")[..], &[138], &rows("N002\n")].concat();
        assert_eq!(written("N3*", [1; 3], 0, &odd), "SV 2539 N3* 1 0 %~N001?~N002~ -> 0 0 1 %~`````````` 2 10 5");
    }

    #[test]
    fn what_is_counted() {
        let losses = |places, text| {
            let specification = Specification::new(2539, "N3*", "");
            Saved { specification, room: Room { places, first: 0 }, tape: rows(text) }.answer().losses
        };
        assert_eq!(losses([5; 3], "%\nN01\nN001\n(\nN001"), Some(vec![9, 7, 14]));
        assert_eq!(losses([5; 3], "%\nN001\n"), Some(vec![]));
        assert_eq!(losses([2; 3], "%\nN01\nN001\n(\nN001"), None);
        assert_eq!(losses([2; 3], "%"), None);
    }

    #[test]
    fn the_edges() {
        let answers: Vec<(u64, u64)> = edges()
            .iter()
            .map(|line| match line {
                Line::Saved(saved) => saved.answer(),
                Line::Spelt(_, line) => match &**line {
                    Line::Saved(saved) => saved.answer(),
                    _ => unreachable!(),
                },
                _ => unreachable!(),
            })
            .map(|reply| (reply.number, reply.place))
            .collect();
        assert_eq!(answers[19..], [(0, 0), (24, 3_998), (0, 0), (0, 0), (24, 100), (0, 0), (24, 101), (24, 101)]);
    }
}
