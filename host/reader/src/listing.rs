//! The listing: what the listing program prints for what stands on its standard input.

use crate::reading::{self, Block};
use crate::shorthand::Format;
use crate::specification::Specification;
use crate::Refusal;
use std::borrow::Borrow;
use std::fmt::Write;

/// LF must stand within this many bytes.
pub(crate) const HEADER: usize = 200;
/// The most rows of a tape that a program that lists takes.
pub(crate) const MOST_ROWS: usize = 60_000;

/// The whole output for `input` on the standard input, and `profile` as the first argument; no bytes where there is none.
pub fn listing(input: &[u8], profile: &[u8]) -> String {
    match blocks(input, profile) {
        Ok((format, blocks)) => text(format.sequence, &blocks),
        Err(refusal) => format!("{refusal}\n"),
    }
}

/// The output for blocks whose sequence numbers have `digits` digits.
pub fn text(digits: u32, blocks: &[impl Borrow<Block>]) -> String {
    let mut text = String::new();
    for block in blocks {
        line(&mut text, digits as usize, block.borrow());
    }
    text += &format!("blocks {}\n", blocks.len());
    text
}

fn line(text: &mut String, digits: usize, block: &Block) {
    let letter = if block.opening.alignment { ':' } else { 'N' };
    let number = if block.opening.numbered { format!("{:0digits$}", block.opening.sequence) } else { "-".into() };
    let skip = if block.opening.skip { '/' } else { '-' };
    let _ = write!(text, "{letter} {number} {skip}");
    for &(letter, value) in &block.words {
        let _ = write!(text, " {}{value}", letter as char);
    }
    text.push('\n');
}

fn blocks(input: &[u8], profile: &[u8]) -> Result<(Format, Vec<Block>), Refusal> {
    let (edition, shorthand, rows) = header(input).ok_or(Refusal::new(1, 0))?;
    let format = Specification::new(edition, shorthand, profile).format()?;
    let blocks = blocks_on(&format, rows)?;
    Ok((format, blocks))
}

/// The blocks on a tape that is to be listed.
pub(crate) fn blocks_on(format: &Format, rows: &[u8]) -> Result<Vec<Block>, Refusal> {
    if rows.len() > MOST_ROWS {
        return Err(Refusal::new(4, MOST_ROWS));
    }
    let mut blocks = Vec::new();
    reading::read(format, rows, &mut blocks)?;
    Ok(blocks)
}

/// The edition, what stands behind it, and the rows; none where there is no header of an edition.
pub(crate) fn header(input: &[u8]) -> Option<(u32, &[u8], &[u8])> {
    let end = input.iter().take(HEADER).position(|&byte| byte == b'\n')?;
    let (line, rows) = (&input[..end], &input[end + 1..]);
    let space = line.iter().position(|&byte| byte == b' ')?;
    let edition = match &line[..space] {
        b"1057" => 1057,
        b"2539" => 2539,
        _ => return None,
    };
    Some((edition, &line[space + 1..], rows))
}

#[cfg(test)]
mod tests {
    use super::*;
    use crate::rows::punched;

    fn input(header: &str, text: &str) -> Vec<u8> {
        header.bytes().chain(text.bytes().map(punched)).collect()
    }

    /// The output without a profile.
    fn listing(input: &[u8]) -> String {
        super::listing(input, b"")
    }

    #[test]
    fn the_example() {
        let text = "%\nN001\tG01\tX+012500\tF615\n/N002\t\tX-000250\n";
        assert_eq!(text.len(), 41);
        assert_eq!(listing(&input("1057 N3.G2.X+42.F3.M2*\n", text)), "N 001 - G1 X12500 F1500000000\nN 002 / X-250\nblocks 2\n");
    }

    #[test]
    fn feeds_behind_their_own_axis() {
        let text = "%\nN001\tX-000250\tE615\t\tF000\tD5153\n";
        let list = |header| listing(&input(header, text));
        assert_eq!(list("1057 N3.X+42.E3.Y+42.F3.D4*\n"), "N 001 - X-250 E1500000000 F0 D153000000\nblocks 1\n");
        // D is a dimension already
        assert_eq!(list("2539 N3.X+42.E3.D+42.F3.D4*\n"), "refused 2 18\n");
    }

    #[test]
    fn speeds_of_two_digits() {
        let list = |header| listing(&input(header, "%\nN001F00S99\nN002F46\n"));
        assert_eq!(list("2539 N3F2S2*\n"), "N 001 - Fstop Srapid\nN 002 - F2000000000\nblocks 2\n");
        assert_eq!(list("2539 N3F3S2*\n"), "refused 11 9\n");
        assert_eq!(listing(&input("1057 N3.F2.S2*\n", "")), "refused 3 2\n");
    }

    #[test]
    fn blocks_without_number() {
        let list = |header, text| listing(&input(header, text));
        let plain = |text| list("2539 N3X+042*\n", text);
        assert_eq!(plain("%\nX5\nN007X6\n/X7\n"), "N - - X5\nN 007 - X6\nN - / X7\nblocks 3\n");
        assert_eq!(plain("%\nN000\n:000X5\n"), "N 000 -\n: 000 - X5\nblocks 2\n");
        assert_eq!(plain("%\n\n"), "refused 9 2\n");
        assert_eq!(plain("%\n/\n"), "refused 9 3\n");
        assert_eq!(plain("%\n:X5\n"), "refused 9 3\n");
        let tabs = |text| list("2539 N3.X+042*\n", text);
        assert_eq!(tabs("%\n\tX5\n"), "N - - X5\nblocks 1\n");
        assert_eq!(tabs("%\nX5\n"), "refused 9 2\n");
        assert_eq!(tabs("%\n\t\n"), "refused 9 3\n");
        assert_eq!(list("1057 N3.X+42*\n", "%\n\tX+000005\n"), "refused 9 2\n");
        let without_addresses = super::listing(&input("2539 N3.G2.X+042*\n", "%\n\t\t-5\n"), b"LTM110A");
        assert_eq!(without_addresses, "N - - X-5\nblocks 1\n");
    }

    /// The samples beside this package, each under the profile beside it.
    #[test]
    fn the_samples() {
        let folder = std::path::Path::new(env!("CARGO_MANIFEST_DIR")).join("../sample");
        let read = |name: &str| std::fs::read(folder.join(name)).unwrap();
        for (name, profile) in [("tape", ""), ("feeds", ""), ("tabs", "tabs.profile"), ("preferred", ""), ("unnumbered", "")] {
            let profile = if profile.is_empty() { Vec::new() } else { read(profile) };
            let listed = super::listing(&read(name), profile.trim_ascii_end());
            assert_eq!(listed.as_bytes(), read(&format!("{name}.listing")), "{name}");
        }
    }

    #[test]
    fn the_header() {
        for wrong in ["", "1057", "1057 N3*", "1057\n", " N3*\n", "01057 N3*\n", "1058 N3*\n", "1057N3* \n"] {
            assert_eq!(listing(&input(wrong, "")), "refused 1 0\n", "{wrong:?}");
        }
        assert_eq!(listing(&input("1057  N3*\n", "")), "refused 2 0\n");
        assert_eq!(listing(&input("1057 N3*\n", "")), "refused 8 0\n");
        let long = |length: usize| format!("1057 {}\n", "N".repeat(length - 6));
        assert_eq!(listing(&input(&long(200), "")), "refused 2 0\n");
        assert_eq!(listing(&input(&long(201), "")), "refused 1 0\n");
    }

    #[test]
    fn too_many_rows() {
        let mut most = input("1057 N3*\n", "%\n");
        let header = most.len() - 2;
        most.resize(header + MOST_ROWS, 0);
        assert_eq!(listing(&most), "blocks 0\n");
        most.push(1);
        assert_eq!(listing(&most), "refused 4 60000\n");
        most[6] = b'2';
        assert_eq!(listing(&most), "refused 2 0\n");
    }

    #[test]
    fn without_addresses() {
        let header = "2539 N3.G2.X+042*\n";
        let list = |text, profile: &str| super::listing(&input(header, text), profile.as_bytes());
        let text = "%\nN001\t01\t5\nN002\t\t-0\nN003\t\t\n";
        assert_eq!(list(text, "LTM110A"), "N 001 - G1 X5\nN 002 - X0\nN 003 -\nblocks 3\n");
        assert_eq!(list(text, ""), "refused 10 7\n");
        assert_eq!(list(text, "LSM110A"), "refused 10 7\n");
        assert_eq!(list(text, "LTM110"), "refused 22 6\n");
        assert_eq!(list(text, "LTM111I"), "refused 23 0\n");
    }

    #[test]
    fn the_profile_is_judged_before_the_rows() {
        let mut most = input("2539 N3*\n", "");
        most.resize(9 + MOST_ROWS + 1, 1);
        assert_eq!(super::listing(&most, b"LTM000A"), "refused 4 60000\n");
        assert_eq!(super::listing(&most, b"LTM111A"), "refused 23 0\n");
        assert_eq!(super::listing(&most, b"LTM"), "refused 22 3\n");
        assert_eq!(super::listing(b"2539 N3\n", b"LTM"), "refused 2 2\n");
        assert_eq!(super::listing(b"2538 N3*\n", b"LTM"), "refused 1 0\n");
    }
}
