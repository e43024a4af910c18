//! Rows and characters: the even number of holes, the 50 characters, and stages 1 and 2.

use crate::Refusal;

/// The most rows a tape may have (refusal 4).
pub const MOST_ROWS: usize = 1_000_000;

/// The characters that the rules name, beside digits and letters.
pub const NUL: u8 = 0;
/// Backspace.
pub const BS: u8 = 8;
/// The tab.
pub const HT: u8 = 9;
/// The end of a block.
pub const LF: u8 = 10;
/// May stand directly before LF.
pub const CR: u8 = 13;
/// All holes punched.
pub const DEL: u8 = 127;

// The two reasons for refusing a row stand above every character, so that the greatest entry over a
// stretch of rows tells whether stages 1 and 2 have anything to say of it.
const UNKNOWN: u8 = 0xFE;
const ODD: u8 = 0xFF;

/// What each of the 256 rows is: a character, or one of the two reasons above.
static ROWS: [u8; 256] = {
    let mut table = [0; 256];
    let mut row = 0;
    while row < 256 {
        let character = row as u8 & 0x7F;
        table[row] = if (row as u8).count_ones() % 2 == 1 {
            ODD
        } else if is_character(character) {
            character
        } else {
            UNKNOWN
        };
        row += 1;
    }
    table
};

/// One of the 50.
pub const fn is_character(character: u8) -> bool {
    matches!(
        character,
        NUL | BS | HT | LF | CR | b' ' | b'%' | b'(' | b')' | b'+' | b'-' | b'/' | b'0'..=b':' | b'A'..=b'Z' | DEL
    )
}

/// The row of a character: its seven bits, and the eighth that makes the number of holes even.
pub const fn punched(character: u8) -> u8 {
    character | ((character.count_ones() % 2) as u8) << 7
}

/// How many rows are looked at before it is asked whether any of them is at fault.
const STRETCH: usize = 4096;

/// Stages 1 and 2: the length, then every row's holes, then every row's character.
pub fn judge(tape: &[u8]) -> Result<(), Refusal> {
    if tape.len() > MOST_ROWS {
        return Err(Refusal::new(4, MOST_ROWS));
    }
    let mut unknown = None;
    for (stretch, rows) in tape.chunks(STRETCH).enumerate() {
        let worst = rows.iter().fold(0, |worst, &row| ROWS[row as usize].max(worst));
        let lowest = |reason| rows.iter().position(|&row| ROWS[row as usize] == reason).map(|at| stretch * STRETCH + at);
        if worst >= UNKNOWN {
            if let Some(odd) = lowest(ODD) {
                return Err(Refusal::new(5, odd));
            }
            // an odd row further on still comes first
            unknown = unknown.or_else(|| lowest(UNKNOWN));
        }
    }
    unknown.map_or(Ok(()), |place| Err(Refusal::new(6, place)))
}

#[cfg(test)]
mod tests {
    use super::*;

    #[test]
    fn there_are_fifty_characters() {
        assert_eq!((0..128).filter(|&c| is_character(c)).count(), 50);
        assert_eq!(ROWS.iter().filter(|&&r| r < 128).count(), 50);
        assert_eq!(ROWS.iter().filter(|&&r| r == ODD).count(), 128);
    }

    #[test]
    fn the_cases_of_single_rows() {
        assert_eq!(punched(b'%'), 165);
        assert_eq!(judge(&[165]), Ok(()));
        assert_eq!(judge(&[37]), Err(Refusal::new(5, 0)));
        assert_eq!(judge(&[255]), Ok(()));
        assert_eq!(judge(&[127]), Err(Refusal::new(5, 0)));
        assert_eq!(judge(&[33]), Err(Refusal::new(6, 0)));
    }

    #[test]
    fn a_later_odd_row_comes_before_an_unknown_one() {
        assert_eq!(judge(&[165, 33, 10, 37, 37]), Err(Refusal::new(5, 3)));
        assert_eq!(judge(&[165, 10, 33, 33]), Err(Refusal::new(6, 2)));
        let mut tape = vec![0; 3 * STRETCH];
        tape[STRETCH + 5] = 33;
        tape[2 * STRETCH] = 33;
        assert_eq!(judge(&tape), Err(Refusal::new(6, STRETCH + 5)));
        tape[2 * STRETCH + 7] = 1;
        assert_eq!(judge(&tape), Err(Refusal::new(5, 2 * STRETCH + 7)));
    }

    #[test]
    fn the_longest_tape() {
        let mut tape = vec![0; MOST_ROWS];
        assert_eq!(judge(&tape), Ok(()));
        tape.push(1);
        assert_eq!(judge(&tape), Err(Refusal::new(4, MOST_ROWS)));
    }
}
