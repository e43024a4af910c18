//! Damage: to tapes row by row, to shorthands and profiles byte by byte.

use super::chance::Chance;
use super::programs::any_character;
use crate::rows::{punched, BS, CR, HT, LF};

/// Characters that mean something to the rules, the rarer ones as often as the digits.
const TELLING: &[u8] = &[
    LF, CR, HT, BS, b' ', b'%', b'%', b'(', b'(', b')', b')', b'+', b'-', b'/', b'0', b'0', b'1', b'9', b':', b':', b'N', b'X',
    b'G', b'M', b'F', b'S', b'T', b'D', b'E',
];

/// Does one to three kinds of damage to a tape.
pub fn tape(chance: &mut Chance, rows: &mut Vec<u8>) {
    for _ in 0..1 + chance.below(8) / 5 {
        once(chance, rows);
    }
}

fn once(chance: &mut Chance, rows: &mut Vec<u8>) {
    let at = chance.below(rows.len() + 1);
    let row = some_row(chance);
    if at == rows.len() {
        return rows.insert(at, row);
    }
    match chance.below(12) {
        0 => rows[at] ^= holes(chance, 1),
        1 => rows[at] ^= holes(chance, 0),
        2 => {
            for _ in 0..1 + chance.below(4) {
                let at = chance.below(rows.len());
                rows[at] ^= chance.below(256) as u8;
            }
        }
        3 | 4 => rows.insert(at, row),
        5 | 6 => {
            rows.remove(at);
        }
        7 => {
            let other = if chance.happens(1, 2) { (at + 1) % rows.len() } else { chance.below(rows.len()) };
            rows.swap(at, other);
        }
        8 => rows[at] = row,
        9 => rows.truncate(at),
        10 => {
            // a stretch of rows twice
            let end = at + chance.below((rows.len() - at).min(12) + 1);
            let twice = rows[at..end].to_vec();
            rows.splice(end..end, twice);
        }
        _ => zero_a_digit(chance, rows),
    }
}

/// A zero where a digit stood, which is how most bad speeds come about.
fn zero_a_digit(chance: &mut Chance, rows: &mut [u8]) {
    let digits: Vec<usize> = (0..rows.len()).filter(|&at| (rows[at] & 0x7F).is_ascii_digit()).collect();
    if !digits.is_empty() {
        rows[chance.one_of(&digits)] = punched(b'0');
    }
}

/// Holes to change in one row: an even number of them or an odd one (`parity` 0 or 1), never none.
pub fn holes(chance: &mut Chance, parity: u32) -> u8 {
    loop {
        let holes = 1 + chance.below(255) as u8;
        if holes.count_ones() % 2 == parity {
            return holes;
        }
    }
}

fn some_row(chance: &mut Chance) -> u8 {
    match chance.below(8) {
        0 => chance.below(256) as u8,
        1 | 2 => punched(any_character(chance)),
        _ => punched(chance.one_of(TELLING)),
    }
}

/// Pieces that a shorthand is made of, sound and unsound.
const PIECES: &[&str] = &[
    ".", ".", ".", "*", "G2", "G3", "M2", "M", "F3", "F4", "F5", "F6", "F2", "S3", "S5", "S2", "T1", "T9", "T0", "T", "X", "Y",
    "Z", "U", "V", "W", "P", "Q", "R", "I", "J", "K", "A", "B", "C", "D", "E", "+", "D", "42", "00", "0", "04", "40", "042",
    "420", "040", "005", "500", "000", "99", "142", "N3", "N", " ", "E3", "E4", "E5", "E2", "D3", "D4", "D5", "D6", "D2", "E42",
    "D42", ".E3", ".D4", ".E", ".D", ".X42", ".Y42", ".F3", ".F2", ".S2",
];

/// A shorthand put together from pieces without regard to the rules.
pub fn pieces(chance: &mut Chance) -> Vec<u8> {
    let mut text = chance.one_of(&["N3", "N3", "N3", "N4", "N9", "N", "N2", "N33", ".N3", "", "X42"]).as_bytes().to_vec();
    for _ in 0..chance.below(9) {
        text.extend_from_slice(chance.one_of(PIECES).as_bytes());
    }
    if chance.happens(1, 2) {
        text.push(b'*');
    }
    text
}

/// Does one to three kinds of damage to a shorthand.
pub fn shorthand(chance: &mut Chance, text: &mut Vec<u8>) {
    bytes(chance, text, b"N.*GXYZUVWPQRIJKABCDEFSTM++DD0000123456789", PIECES);
}

/// Does one to three kinds of damage to a profile.
pub fn profile(chance: &mut Chance, text: &mut Vec<u8>) {
    bytes(chance, text, b"IPLATSMIRDB   0123456789", &["IPM", "LTM", "LSMD", " ", "  ", "R", "D", "11", "321", "A", "I", "B"]);
    if chance.happens(1, 100) {
        text.resize(300, b'A');
    }
}

/// Does one to three kinds of damage to a text, mostly with the `telling` bytes and `pieces`.
fn bytes(chance: &mut Chance, text: &mut Vec<u8>, telling: &[u8], pieces: &[&str]) {
    for _ in 0..1 + chance.below(8) / 5 {
        let at = chance.below(text.len() + 1);
        let byte = if chance.happens(1, 8) { chance.below(256) as u8 } else { chance.one_of(telling) };
        if at == text.len() {
            text.push(byte);
            continue;
        }
        match chance.below(7) {
            0 => text[at] = byte,
            1 | 2 => text.insert(at, byte),
            3 => {
                text.remove(at);
            }
            4 => {
                let other = chance.below(text.len());
                text.swap(at, other);
            }
            5 => text.truncate(at),
            _ => {
                let piece = chance.one_of(pieces).bytes();
                text.splice(at..at, piece);
            }
        }
    }
}
