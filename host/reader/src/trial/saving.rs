//! Makes tapes to save: with pieces that can't stay, with bad rows anywhere, with a head that is refused or without its end, in
//! lists with room and without.

use super::chance::Chance;
use super::correcting::misjudge;
use super::damage;
use super::indexed::MOST_PLACES;
use super::inputs::{self, Ask, Input};
use super::lines::{make_sayable, told, Line, Posed};
use super::programs::{self, Made as Item, Plan};
use super::saved::{Room, Saved, MOST_SAVED};
use crate::rows::{is_character, punched, CR, DEL, LF, NUL};
use crate::salvage::{losses, Loss};
use crate::specification::Specification;
use crate::Refusal;

/// What a tape loses, or is refused with, but for 24.
type Fate = Result<Vec<Loss>, Refusal>;

/// A tape to save.
struct Made {
    specification: Specification,
    tape: Vec<u8>,
    /// its fate, where that is known from the making
    known: Option<Fate>,
}

/// Makes a tape of a plan.
type Maker = fn(&mut Chance, &Plan) -> (Vec<u8>, Option<Fate>);

const MAKERS: &[Maker] =
    &[of_pieces, of_pieces, of_pieces, of_pieces, worn, worn, worn, worn, worn, worn, with_a_bad_head, without_ends];

/// `size` tapes to save.
pub fn tapes(seed: u64, size: usize) -> Vec<Posed> {
    let chance = &mut Chance::new(seed);
    (0..size).map(|_| Made::drawn(chance).posed(chance)).collect()
}

impl Made {
    /// One that is short enough for a line.
    fn drawn(chance: &mut Chance) -> Made {
        loop {
            let mut plan = programs::plan(chance);
            make_sayable(&mut plan.specification);
            let make = chance.one_of(MAKERS);
            let (tape, mut known) = make(chance, &plan);
            let mut specification = plan.specification.clone();
            if chance.happens(1, 12) {
                known = misjudge(chance, &plan, &mut specification).map(Err);
            }
            if tape.len() <= MOST_SAVED {
                return Made { specification, tape, known };
            }
        }
    }

    /// The line, in lists at both sides of what is needed.
    fn posed(self, chance: &mut Chance) -> Posed {
        let Made { specification, tape, known } = self;
        let read = || specification.format().and_then(|format| losses(&format, &tape));
        let needed = known.clone().unwrap_or_else(read).map_or(1, |losses| losses.len());
        let room = room(chance, needed);
        let known = known.map(|fate| match fate {
            Err(refusal) => told(refusal),
            Ok(_) if room.least() < needed => (24, needed as u64),
            Ok(_) => (0, 0),
        });
        Posed { line: Line::Saved(Box::new(Saved { specification, room, tape })), known }
    }
}

/// Lists for so many entries: just enough in all of them, too few in one or in all, or more.
fn room(chance: &mut Chance, needed: usize) -> Room {
    let short = needed.saturating_sub(1);
    let mut enough = || needed + chance.one_of(&[0, 0, 1, 4]);
    let unlike = [enough(), enough(), enough()];
    let mut places = [needed; 3];
    match chance.below(12) {
        0 => places = [0; 3],
        1 => places = [short; 3],
        2 => places[chance.below(3)] = short,
        3 => {
            places = unlike;
            places[chance.below(3)] = short;
        }
        4 | 5 => places = unlike,
        6 => places = [unlike[0]; 3],
        _ => {}
    }
    Room { places: places.map(|places| places.min(MOST_PLACES)), first: chance.below(256) as u8 }
}

/// What stands between two LF, and the number that head and piece alone are refused with; 0 where they are not.
struct Piece {
    rows: Vec<u8>,
    number: u32,
}

fn rows_of(text: &str) -> Vec<u8> {
    text.bytes().map(punched).collect()
}

impl Piece {
    fn of((text, number): (&str, u32)) -> Piece {
        Piece { rows: rows_of(text), number }
    }

    /// Makes a row odd, or one that is no character's. Where it was the LF, the next piece belongs to this one.
    fn spoil(&mut self, chance: &mut Chance) {
        let last = self.rows.len() - 1;
        let at = if chance.happens(1, 4) { last } else { chance.below(last + 1) };
        let row = &mut self.rows[at];
        if self.number != 5 && chance.happens(1, 3) {
            *row = foreign_row(chance);
            self.number = 6;
            return;
        }
        let odd = row.count_ones() % 2;
        // as often as not the row and its odd twin have the same character
        *row ^= if odd == 0 && chance.happens(1, 2) { 128 } else { damage::holes(chance, 1 - odd) };
        self.number = 5;
    }
}

/// An even row that is no character's.
fn foreign_row(chance: &mut Chance) -> u8 {
    loop {
        let character = chance.below(128) as u8;
        if !is_character(character) {
            return punched(character);
        }
    }
}

/// Pieces that can't stay, whatever the plan is.
const STRANGE: &[(&str, u32)] = &[
    ("\n", 9),
    ("\n", 9),
    ("\r\n", 9),
    ("/\n", 9),
    ("%\n", 9),
    ("%\r\n", 9),
    ("\0(A)%\n", 9),
    ("N\n", 9),
    ("N00\n", 9),
    (":1\n", 9),
    ("/ N001\n", 9),
    ("\x08\n", 9),
    ("(\n", 7),
    (")\n", 7),
    ("N001(A\n", 7),
    ("B)N001\n", 7),
    ("(A%)N001\n", 7),
    ("(:)\n", 7),
    ("(()))\n", 7),
    ("\x7F\x7F(A\n", 7),
];

/// What may stand before a piece, whatever becomes of it.
const LEADERS: &[&str] = &["\0", "\0\0\0\0\0", "\x7F\x7F", "(A)", "\0()\0", "(N001\r)", "((\x7F)\x7F"];

/// What may stand behind the last LF, and what may not.
const TAILS: &[(&str, u32)] =
    &[("\0\0", 0), ("\0(E)", 0), ("\x7F", 0), ("()\0", 0), ("\0(E", 7), ("E)", 7), ("N00", 14), ("/\0", 14), ("(A):", 14)];

/// The head of a sound tape and its blocks, with NUL for the LF of their remarks: each ends with its only LF.
fn undivided(chance: &mut Chance, plan: &Plan, most: usize) -> impl Iterator<Item = Vec<u8>> {
    programs::parts(chance, plan, most).into_iter().map(|mut rows| {
        rows.pop();
        rows.iter_mut().filter(|row| **row == punched(LF)).for_each(|row| *row = punched(NUL));
        rows.push(punched(LF));
        rows
    })
}

/// A head and pieces of which it is known whether they stay: blocks, strange pieces, bad rows in some of either, and a tail or none.
fn of_pieces(chance: &mut Chance, plan: &Plan) -> (Vec<u8>, Option<Fate>) {
    let mut parts = undivided(chance, plan, 6);
    let mut tape = parts.next().unwrap_or_default();
    let mut pieces: Vec<Piece> = parts.map(|rows| Piece { rows, number: 0 }).collect();
    for _ in 0..chance.one_of(&[0, 0, 0, 1, 2, 5]) {
        let strange = if chance.happens(1, 2) { wrong_block(chance, plan) } else { Piece::of(chance.one_of(STRANGE)) };
        pieces.insert(chance.below(pieces.len() + 1), strange);
    }
    if chance.happens(1, 40) {
        // about as many as a list has places
        pieces.extend((0..MOST_PLACES - 4 + chance.below(8)).map(|_| Piece::of(("\n", 9))));
    }
    pieces.extend(tail(chance, plan));
    for piece in &mut pieces {
        if chance.happens(1, 8) {
            piece.rows.splice(0..0, rows_of(chance.one_of(LEADERS)));
        }
    }
    if !pieces.is_empty() {
        for _ in 0..chance.one_of(&[0, 0, 0, 1, 2, 4]) {
            let at = chance.below(pieces.len());
            pieces[at].spoil(chance);
        }
    }
    let mut lost = Vec::new();
    for Piece { rows, number } in joined(pieces) {
        if number != 0 {
            lost.push(Loss { first: tape.len(), length: rows.len(), number });
        }
        tape.extend(rows);
    }
    (tape, Some(Ok(lost)))
}

/// A block with a number and one word that is wrong, or with a row in the word's place that begins none.
fn wrong_block(chance: &mut Chance, plan: &Plan) -> Piece {
    let mut text = format!("N{}", "0".repeat(plan.sequence));
    if plan.items.is_empty() || chance.happens(1, 4) {
        text += chance.one_of(&[" \n", "/\n", "+\n", "%\n", "\r\r\n", "\rN001\n"]);
        return Piece::of((&text, 10));
    }
    let at = chance.below(plan.items.len());
    let (letter, made) = plan.items[at];
    if plan.layout.has_tabs() {
        text += &"\t".repeat(at + 1);
    }
    if plan.layout.has_addresses() {
        text.push(char::from(letter));
    }
    let (digits, signed) = match made {
        Item::Plain { digits } | Item::Speed { digits } => (digits, false),
        Item::Dimension { mark, digits, .. } => (digits, mark.is_some()),
    };
    let number = match (chance.below(3), made) {
        (0, Item::Speed { digits: 3.. }) => {
            text += &format!("10{}", "0".repeat(digits - 2));
            13
        }
        // a sign where none may stand, or none where one must
        (1, _) if !signed || !plan.is_newer() => {
            text += if signed { "" } else { chance.one_of(&["+", "-"]) };
            text += &"0".repeat(digits);
            12
        }
        _ => {
            text += if signed { chance.one_of(&["+", "-"]) } else { "" };
            text += &"0".repeat(digits + 1);
            11
        }
    };
    Piece::of((&(text + "\n"), number))
}

/// What stands behind the last LF, if anything: one of the tails, or a block without its end.
fn tail(chance: &mut Chance, plan: &Plan) -> Option<Piece> {
    match chance.below(6) {
        0 | 1 => Some(Piece::of(chance.one_of(TAILS))),
        2 => {
            let mut rows = undivided(chance, plan, 1).nth(1)?;
            rows.pop();
            Some(Piece { rows, number: 14 })
        }
        _ => None,
    }
}

/// The pieces as LF divides them: one whose LF was spoilt is one with the next.
fn joined(pieces: Vec<Piece>) -> Vec<Piece> {
    let mut all: Vec<Piece> = Vec::new();
    for piece in pieces {
        match all.last_mut().filter(|last| last.rows.last() != Some(&punched(LF))) {
            Some(last) => {
                last.rows.extend(piece.rows);
                // it has 5 or 6, and before these comes 5 alone
                last.number = if piece.number == 5 { 5 } else { last.number };
            }
            None => all.push(piece),
        }
    }
    all
}

/// What can't stand before a head, with number and place.
const BEFORE: &[(&str, u32, usize)] = &[
    ("\n", 8, 0),
    ("\0\x7F\n", 8, 2),
    ("N001\n", 8, 0),
    ("X", 8, 0),
    ("(A)/", 8, 3),
    ("%X", 8, 1),
    ("%\0\rN", 8, 2),
    ("(A\n)", 7, 0),
    ("\0(\n", 7, 1),
    (")", 7, 0),
    ("(A)\0)", 7, 4),
    ("(%)", 7, 1),
];

/// A tape whose head is refused, whatever stands behind it.
fn with_a_bad_head(chance: &mut Chance, plan: &Plan) -> (Vec<u8>, Option<Fate>) {
    let (mut tape, _) = of_pieces(chance, plan);
    let end = tape.iter().position(|&row| row == punched(LF)).unwrap_or_default();
    let refusal = match chance.below(4) {
        0 => {
            // where it was the LF, the head runs on to the next
            let at = chance.below(end + 1);
            tape[at] ^= damage::holes(chance, 1);
            Refusal::new(5, at)
        }
        1 => {
            let at = chance.below(end);
            tape[at] = foreign_row(chance);
            Refusal::new(6, at)
        }
        _ => {
            let (text, number, place) = chance.one_of(BEFORE);
            tape.splice(0..0, rows_of(text));
            Refusal::new(number, place)
        }
    };
    (tape, Some(Err(refusal)))
}

/// A blank tape, or one without any LF.
fn without_ends(chance: &mut Chance, plan: &Plan) -> (Vec<u8>, Option<Fate>) {
    if chance.happens(1, 2) {
        let length = chance.below(40);
        let tape = (0..length).map(|_| punched(chance.one_of(&[NUL, NUL, NUL, DEL]))).collect();
        return (tape, Some(Err(Refusal::new(8, length))));
    }
    let (mut tape, _) = of_pieces(chance, plan);
    tape.retain(|&row| row != punched(LF));
    (tape, None)
}

/// A tape of any kind, with any number of bad places.
fn worn(chance: &mut Chance, plan: &Plan) -> (Vec<u8>, Option<Fate>) {
    let mut tape = match chance.below(4) {
        0 => of_pieces(chance, plan).0,
        1 => programs::tape(chance, plan, 6).rows,
        _ => programs::slipped_rows(chance, plan, 6),
    };
    for _ in 0..chance.below(5) {
        wear(chance, &mut tape);
    }
    (tape, None)
}

/// Rows that are laid between those of a tape.
const LAID: &[&str] = &[
    "(A\nB)", "(\n)", "(\n\n)", "(N001\n)", "(N1\r\n", "(", "(", "(E", ")", ")", "%\n", "%\r\n", "%", "\n", "\n\n\n", "\r\n",
    "\r", "\r\r\n", "\0\0\0", "\x7F\x7F", "\0(A)\0", "N001\n", "N01\n", ":", "/", "+", "0", "\t", "\x08", " ",
];

/// Does one kind of damage to a tape.
fn wear(chance: &mut Chance, rows: &mut Vec<u8>) {
    let ends: Vec<usize> = (0..rows.len()).filter(|&at| rows[at] == punched(LF)).collect();
    match chance.below(8) {
        0 | 1 => damage::tape(chance, rows),
        2 => soak(chance, rows),
        3 | 4 if !ends.is_empty() => spoil_end(chance, rows, &ends),
        _ => {
            let anywhere = chance.below(rows.len() + 1);
            let at = match chance.below(5) {
                0 => rows.len(),
                1..=3 if !ends.is_empty() => chance.one_of(&ends) + 1,
                _ => anywhere,
            };
            rows.splice(at..at, rows_of(chance.one_of(LAID)));
        }
    }
}

/// Some rows next to each other show holes that were never punched.
fn soak(chance: &mut Chance, rows: &mut [u8]) {
    let from = chance.below(rows.len() + 1);
    let count = 1 + chance.below(5);
    for row in rows[from..].iter_mut().take(count) {
        *row |= 1 << chance.below(8) | 1 << chance.below(8);
    }
}

/// One LF of these is its odd twin, or a CR, or gone, or the tape ends before it.
fn spoil_end(chance: &mut Chance, rows: &mut Vec<u8>, ends: &[usize]) {
    let at = chance.one_of(ends);
    match chance.below(4) {
        0 => rows[at] ^= 128,
        1 => rows[at] = punched(CR),
        2 => {
            rows.remove(at);
        }
        _ => rows.truncate(at),
    }
}

/// About `size` tapes and specifications of all kinds.
pub fn refused(seed: u64, size: usize) -> Vec<Posed> {
    let chance = &mut Chance::new(seed);
    inputs::tapes(seed, size).into_iter().filter_map(|input| of_any_kind(chance, input)).collect()
}

fn of_any_kind(chance: &mut Chance, input: Input) -> Option<Posed> {
    let Ask::Count { mut specification, tape } = input.ask else { return None };
    if tape.len() > MOST_SAVED {
        return None;
    }
    make_sayable(&mut specification);
    // what a whole tape is refused with may cost it a piece alone
    let known = input.known.filter(|known| matches!(known.number, 1..=3 | 22 | 23));
    let Posed { line, .. } = Made { specification, tape, known: None }.posed(chance);
    Some(Posed { line, known: known.map(|known| (known.number, known.place)) })
}

#[cfg(test)]
mod tests {
    use super::*;
    use crate::salvage::hold;
    use crate::trial::saved::Done;

    /// What is lost, or refused, is as it was made.
    #[test]
    fn tapes_are_saved_as_they_were_made() {
        let chance = &mut Chance::new(7);
        let [mut lost, mut refused] = [0; 2];
        for _ in 0..6_000 {
            let Made { specification, tape, known } = Made::drawn(chance);
            let Some(known) = known else { continue };
            let fate = specification.format().and_then(|format| losses(&format, &tape));
            assert_eq!(fate, known, "{}", tape.escape_ascii());
            *(if known.is_ok() { &mut lost } else { &mut refused }) += 1;
        }
        assert!(lost > 1_500 && refused > 800, "{lost} {refused}");
    }

    /// Number and place of each line are as they were made, tape and lists as the rules have them.
    #[test]
    fn what_is_saved() {
        let [mut unaltered, mut lost, mut refused_for_room] = [0; 3];
        for Posed { line, known } in tapes(8, 4_000).into_iter().chain(refused(9, 2_000)) {
            let Line::Saved(saved) = line else { unreachable!() };
            let Saved { specification, room, tape } = &*saved;
            let Done { answer, tape: after, lists } = saved.done();
            let told = answer.map_or_else(told, |_| (0, 0));
            assert!(known.is_none_or(|known| known == told), "{}", saved.text().escape_ascii());
            let Ok(count) = answer else {
                assert_eq!((&after, lists), (tape, room.lent()));
                refused_for_room += usize::from(told.0 == 24);
                continue;
            };
            let format = specification.format().unwrap();
            let losses = losses(&format, tape).unwrap();
            hold(&format, tape, &after, &losses);
            let mut due = room.lent();
            for (at, loss) in losses.iter().enumerate() {
                [due[0][at], due[1][at], due[2][at]] = [loss.first as u64, loss.length as u64, u64::from(loss.number)];
            }
            assert_eq!((lists, count), (due, losses.len() as u64));
            *(if count == 0 { &mut unaltered } else { &mut lost }) += 1;
        }
        assert!([unaltered, lost, refused_for_room].iter().all(|&seen| seen > 300), "{unaltered} {lost} {refused_for_room}");
    }
}
