//! Saving what can be saved of a damaged tape: each piece behind its head that would be refused is overpunched.

use crate::reading::{self, Count};
use crate::rows::{punched, DEL, LF, MOST_ROWS};
use crate::shorthand::Format;
use crate::Refusal;

/// A piece that can't stay.
#[derive(Clone, Copy, Debug, PartialEq, Eq)]
pub struct Loss {
    /// where on the tape its first row stands
    pub first: usize,
    /// how many rows it has
    pub length: usize,
    /// what head and piece alone are refused with
    pub number: u32,
}

/// What the losses are listed in. Each may have another number of places.
pub struct Lists<'a> {
    /// the first row of each
    pub firsts: &'a mut [u64],
    /// how many rows each has
    pub lengths: &'a mut [u64],
    /// the number of the refusal of each
    pub numbers: &'a mut [u64],
}

impl Lists<'_> {
    /// 24 where one of the lists has fewer places than `entries`.
    fn judge_room(&self, entries: usize) -> Result<(), Refusal> {
        if self.firsts.len().min(self.lengths.len()).min(self.numbers.len()) < entries {
            return Err(Refusal::new(24, entries));
        }
        Ok(())
    }

    fn enter(&mut self, at: usize, Loss { first, length, number }: Loss) {
        self.firsts[at] = first as u64;
        self.lengths[at] = length as u64;
        self.numbers[at] = u64::from(number);
    }
}

/// Overpunches each piece of `tape` that can't stay, lists it, and answers how many there are.
pub fn salvage(format: &Format, tape: &mut [u8], lists: &mut Lists) -> Result<u64, Refusal> {
    let losses = losses(format, tape)?;
    lists.judge_room(losses.len())?;
    for (at, &loss) in losses.iter().enumerate() {
        tape[loss.first..][..loss.length].fill(punched(DEL));
        lists.enter(at, loss);
    }
    Ok(losses.len() as u64)
}

/// The pieces of `tape` that can't stay. What refuses its head refuses the tape.
pub fn losses(format: &Format, tape: &[u8]) -> Result<Vec<Loss>, Refusal> {
    if tape.len() > MOST_ROWS {
        return Err(Refusal::new(4, MOST_ROWS));
    }
    let judge = |rows: &[u8]| reading::read(format, rows, &mut Count::default());
    // the row alone divides, whatever it stands in; its odd twin is another row
    let mut parts = tape.split_inclusive(|&row| row == punched(LF));
    let head = parts.next().unwrap_or(&[]);
    judge(head)?;
    let mut losses = Vec::new();
    let mut first = head.len();
    for piece in parts {
        if let Err(refusal) = judge(&[head, piece].concat()) {
            losses.push(Loss { first, length: piece.len(), number: refusal.number });
        }
        first += piece.len();
    }
    Ok(losses)
}

/// Holds a tape that was saved to the rules: `before` is what it was and `after` what it is.
#[cfg(test)]
pub(crate) fn hold(format: &Format, before: &[u8], after: &[u8], lost: &[Loss]) {
    use crate::reading::Block;
    let read = |rows: &[u8]| {
        let mut blocks: Vec<Block> = Vec::new();
        reading::read(format, rows, &mut blocks).map(|()| blocks)
    };
    let ends = |at: &usize| before[*at] == 10;
    let head = (0..before.len()).find(ends).expect("a head that is accepted has an end") + 1;
    let begins: Vec<usize> = (head..before.len()).filter(|at| ends(&(at - 1))).collect();
    let mut left = before.to_vec();
    let mut lost = lost.iter();
    let mut standing = Vec::new();
    for (at, &first) in begins.iter().enumerate() {
        let end = begins.get(at + 1).copied().unwrap_or(before.len());
        match read(&[&before[..head], &before[first..end]].concat()) {
            Ok(blocks) => standing.extend(blocks),
            Err(refusal) => {
                assert_eq!(lost.next(), Some(&Loss { first, length: end - first, number: refusal.number }));
                left[first..end].fill(255);
            }
        }
    }
    assert_eq!(lost.next(), None);
    assert_eq!(after, left);
    assert_eq!(read(after), Ok(standing));
    assert_eq!(losses(format, after), Ok(Vec::new()));
}

#[cfg(test)]
mod tests {
    use super::*;
    use crate::rows::{CR, NUL};
    use crate::specification::Specification;

    /// "o" is NUL, "x" DEL, "~" the odd twin of LF, and another small letter the odd twin of the great one.
    fn rows(text: &str) -> Vec<u8> {
        let row = |byte: u8| match byte {
            b'o' => punched(NUL),
            b'x' => punched(DEL),
            b'~' => 138,
            b'a'..=b'z' => punched(byte.to_ascii_uppercase()) ^ 128,
            _ => punched(byte),
        };
        text.bytes().map(row).collect()
    }

    fn under(shorthand: &str) -> Specification {
        Specification::new(2539, shorthand, "")
    }

    /// First row, length and number of each loss.
    type Entries = Vec<(usize, usize, u32)>;

    /// The tape then and its losses, by lists of those places; of a refusal nothing may be changed.
    fn saved_in(specification: &Specification, tape: &[u8], room: [usize; 3]) -> Result<(Vec<u8>, Entries), (u32, u64)> {
        let mut after = tape.to_vec();
        let [mut firsts, mut lengths, mut numbers] = room.map(|places| vec![77; places]);
        let mut lists = Lists { firsts: &mut firsts, lengths: &mut lengths, numbers: &mut numbers };
        let answer = specification.format().and_then(|format| salvage(&format, &mut after, &mut lists));
        let count = *answer.as_ref().unwrap_or(&0) as usize;
        for list in [&firsts, &lengths, &numbers] {
            assert!(list[count..].iter().all(|&entry| entry == 77));
        }
        if let Err(refusal) = answer {
            assert_eq!(after, tape);
            return Err((refusal.number, refusal.place));
        }
        let entry = |at| (firsts[at] as usize, lengths[at] as usize, numbers[at] as u32);
        let entries: Entries = (0..count).map(entry).collect();
        let losses: Vec<Loss> = entries.iter().map(|&(first, length, number)| Loss { first, length, number }).collect();
        hold(&specification.format().unwrap(), tape, &after, &losses);
        Ok((after, entries))
    }

    fn saved(text: &str) -> Result<(Vec<u8>, Entries), (u32, u64)> {
        saved_in(&under("N3*"), &rows(text), [9; 3])
    }

    fn lost(text: &str, entries: &[(usize, usize, u32)]) -> Result<(Vec<u8>, Entries), (u32, u64)> {
        Ok((rows(text), entries.to_vec()))
    }

    #[test]
    fn a_bad_block_among_good_ones() {
        let tape = rows("%\nN001\nN0X2\nN003\n");
        let left = lost("%\nN001\nxxxxxN003\n", &[(7, 5, 9)]);
        for room in [[1; 3], [2; 3], [1, 2, 3], [9, 1, 1]] {
            assert_eq!(saved_in(&under("N3*"), &tape, room), left);
        }
        for room in [[0; 3], [0, 1, 1], [1, 0, 1], [1, 1, 0], [9, 9, 0]] {
            assert_eq!(saved_in(&under("N3*"), &tape, room), Err((24, 1)));
        }
    }

    #[test]
    fn odd_rows() {
        assert_eq!(saved("%\nn001\nN002\n"), lost("%\nxxxxxN002\n", &[(2, 5, 5)]));
        assert_eq!(saved("%\nN001\nn002\n"), lost("%\nN001\nxxxxx", &[(7, 5, 5)]));
        // one piece of two blocks
        assert_eq!(punched(LF), 10);
        assert_eq!(saved("%\nN001~N002\nN003\n"), lost("%\nxxxxxxxxxxN003\n", &[(2, 10, 5)]));
        assert_eq!(saved("%\nN001\nN002~"), lost("%\nN001\nxxxxx", &[(7, 5, 5)]));
        assert_eq!(saved("%\n~\nN001\n"), lost("%\nxxN001\n", &[(2, 2, 5)]));
    }

    #[test]
    fn line_feeds_in_remarks() {
        assert_eq!(saved("%\n(A\nB)N001\n"), lost("%\nxxxxxxxxxx", &[(2, 3, 7), (5, 7, 7)]));
        assert_eq!(saved("%(A\nB)\nN001\n"), Err((7, 1)));
        assert_eq!(saved("(A\nB)%\nN001\n"), Err((7, 0)));
        // what stands between two of them is read as anything else
        assert_eq!(saved("%\n(A\nN001\n)\nN002\n"), lost("%\nxxxN001\nxxN002\n", &[(2, 3, 7), (10, 2, 7)]));
    }

    #[test]
    fn what_stands_behind_the_last_line_feed() {
        assert_eq!(saved("%\nN001\noo(E)"), lost("%\nN001\noo(E)", &[]));
        assert_eq!(saved("%\nN001\no(E"), lost("%\nN001\nxxx", &[(7, 3, 7)]));
        assert_eq!(saved("%\nN001\nN002"), lost("%\nN001\nxxxx", &[(7, 4, 14)]));
        assert_eq!(saved("%\nN001\r\nN002\r"), lost("%\nN001\r\nxxxxx", &[(8, 5, 14)]));
        assert_eq!(saved("%\nN001\n/"), lost("%\nN001\nx", &[(7, 1, 14)]));
    }

    #[test]
    fn runs_of_line_feeds_and_later_heads() {
        assert_eq!(saved("%\n\n\nN001\n"), lost("%\nxxN001\n", &[(2, 1, 9), (3, 1, 9)]));
        assert_eq!(saved("%\n\r\n"), lost("%\nxx", &[(2, 2, 9)]));
        assert_eq!(saved("%\nN001\n%\nN002\n"), lost("%\nN001\nxxN002\n", &[(7, 2, 9)]));
        assert_eq!(saved("o(A)%\r\nN001\nN01\n"), lost("o(A)%\r\nN001\nxxxx", &[(12, 4, 9)]));
    }

    #[test]
    fn an_earlier_stage_of_a_piece_comes_first() {
        assert_eq!(saved("%\nN001\n!(\n"), lost("%\nN001\nxxx", &[(7, 3, 6)]));
        assert_eq!(saved("%\nN001\n!(n\n"), lost("%\nN001\nxxxx", &[(7, 4, 5)]));
        assert_eq!(saved("%\n)N0\n"), lost("%\nxxxx", &[(2, 4, 7)]));
    }

    #[test]
    fn each_number_of_a_piece() {
        let pieces = [
            ("N001G01\n", 0),
            ("n001\n", 5),
            ("N001!\n", 6),
            ("N001)\n", 7),
            ("N01\n", 9),
            ("N001\t\n", 10),
            ("X+000\n", 0),
            ("N001G1\n", 11),
            ("N001G+1\n", 12),
            ("N001F605\n", 13),
            ("N001F615\n", 0),
            ("N001X+00", 14),
        ];
        let mut tape = rows("%\n");
        let mut entries = Vec::new();
        for (text, number) in pieces {
            if number != 0 {
                entries.push((tape.len(), text.len(), number));
            }
            tape.extend(rows(text));
        }
        let (_, found) = saved_in(&under("N3G2X+12F3*"), &tape, [9; 3]).unwrap();
        assert_eq!(found, entries);
    }

    #[test]
    fn heads() {
        let mut odd = rows("%\nN001\n");
        odd[0] ^= 1;
        assert_eq!(saved_in(&under("N3*"), &odd, [9; 3]), Err((5, 0)));
        // behind its odd twin the head runs on
        assert_eq!(saved("%~N001\nN002\n"), Err((5, 1)));
        assert_eq!(saved("%!\nN001\n"), Err((6, 1)));
        assert_eq!(saved("%)\nN001\n"), Err((7, 1)));
        assert_eq!(saved("%X\nQ\n"), Err((8, 1)));
        assert_eq!(saved("%"), Err((8, 1)));
        assert_eq!(saved("%\r"), Err((8, 2)));
        assert_eq!(saved("\n%\n"), Err((8, 0)));
        assert_eq!(saved("oo"), Err((8, 2)));
        assert_eq!(saved(""), Err((8, 0)));
        // no row behind the head has a say
        assert_eq!(saved("%(\nn001\n"), Err((7, 1)));
        assert_eq!(saved("%!\nn001\n"), Err((6, 1)));
        assert_eq!(saved("%\n"), lost("%\n", &[]));
        assert_eq!(saved("o%x\r(A)\n"), lost("o%x\r(A)\n", &[]));
    }

    #[test]
    fn unaltered_tapes() {
        for text in ["%\nN001\nN002\n", "%\n/N001\r\n(A)x:002\noox", "%\nxxxxxN001\n", "%\noo", "%\n()", "%\nN0o0(E)1\r(\r)\n"] {
            assert_eq!(saved(text), lost(text, &[]));
            assert_eq!(saved_in(&under("N3*"), &rows(text), [0; 3]), lost(text, &[]));
        }
    }

    #[test]
    fn the_order_of_refusals() {
        let mut rows = rows("%~(\n\n");
        rows.resize(MOST_ROWS + 1, 1);
        let asked = |edition, shorthand, profile, tape: &[u8]| {
            saved_in(&Specification::new(edition, shorthand, profile), tape, [0; 3]).unwrap_err()
        };
        assert_eq!(asked(0, "N2*", "IPM12", &rows), (1, 0));
        assert_eq!(asked(2539, "N2*", "IPM12", &rows), (2, 0));
        assert_eq!(asked(1057, "N4*", "IPM12", &rows), (3, 0));
        assert_eq!(asked(1057, "N3.X+42*", "IPM12", &rows), (22, 5));
        assert_eq!(asked(1057, "N3.X+42*", "IPM121", &rows), (23, 0));
        assert_eq!(asked(1057, "N3.X+42*", "", &rows), (4, 1_000_000));
        rows.truncate(6);
        assert_eq!(asked(1057, "N3.X+42*", "", &rows), (5, 1));
        rows[1] = 33;
        assert_eq!(asked(1057, "N3.X+42*", "", &rows), (6, 1));
        rows[1] = punched(CR);
        assert_eq!(asked(1057, "N3.X+42*", "", &rows), (7, 2));
        rows[2] = punched(b'X');
        assert_eq!(asked(1057, "N3.X+42*", "", &rows), (8, 1));
        rows[2] = punched(NUL);
        assert_eq!(asked(1057, "N3.X+42*", "", &rows), (24, 2));
    }

    #[test]
    fn the_longest_tape() {
        let mut tape = rows("%\n");
        tape.resize(MOST_ROWS, punched(NUL));
        assert_eq!(saved_in(&under("N3*"), &tape, [0; 3]), Ok((tape.clone(), vec![])));
        tape[MOST_ROWS - 1] = punched(b'(');
        let (after, entries) = saved_in(&under("N3*"), &tape, [1; 3]).unwrap();
        assert_eq!(entries, [(2, 999_998, 7)]);
        assert!(after[2..].iter().all(|&row| row == 255));
        tape.push(0);
        assert_eq!(saved_in(&under("N3*"), &tape, [1; 3]), Err((4, 1_000_000)));
    }

    /// Every tape of some beginnings and at most five more of a few telling rows.
    #[test]
    fn short_tapes() {
        let more = rows("\n\r~No1()");
        for before in ["%\n", "%\nN00", "%\nN001\n"] {
            for length in 0..=5 {
                for at in 0..8usize.pow(length) {
                    let each = (0..length).map(|digit| more[at / 8usize.pow(digit) % 8]);
                    let tape: Vec<u8> = rows(before).into_iter().chain(each).collect();
                    assert!(saved_in(&under("N3*"), &tape, [6; 3]).is_ok());
                }
            }
        }
    }
}
