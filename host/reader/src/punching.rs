//! Punching: the head, `%` LF, and single blocks.

use crate::reading::{Block, Opening, Value};
use crate::rows::{punched, HT, LF};
use crate::shorthand::{Format, Item, Kind, Layout, Sign};
use crate::speeds;
use crate::Refusal;

/// How many places for words a record has.
pub const PLACES: usize = 22;

/// A letter and its value.
pub type Word = (u8, Value);

/// What stands in a place that holds no word.
pub const CLEARED: Word = (0, Value::Plain(0));

/// A block as it is handed in. The punch doesn't look at places past the count, nor for a number where there is none.
#[derive(Clone, Debug, PartialEq, Eq)]
pub struct Record {
    /// how it begins
    pub opening: Opening,
    /// how many of the places hold its words
    pub count: u64,
    /// the words, and whatever stands behind them
    pub places: [Word; PLACES],
}

/// The record that reading leaves: no more words than items, and the other places cleared.
impl From<&Block> for Record {
    fn from(block: &Block) -> Record {
        let mut places = [CLEARED; PLACES];
        places[..block.words.len()].copy_from_slice(&block.words);
        Record { opening: block.opening, count: block.words.len() as u64, places }
    }
}

/// Writes the head into the first rows of `buffer` and answers how many they are.
pub fn punch_head(buffer: &mut [u8]) -> Result<u64, Refusal> {
    put(buffer, &[punched(b'%'), punched(LF)])
}

/// How many rows the block of `record` has.
pub fn measure_block(format: &Format, record: &Record) -> Result<u64, Refusal> {
    block(format, record).map(|characters| characters.len() as u64)
}

/// Writes the block of `record` into the first rows of `buffer` and answers how many they are.
pub fn punch_block(format: &Format, record: &Record, buffer: &mut [u8]) -> Result<u64, Refusal> {
    put(buffer, &block_rows(format, record)?)
}

/// The rows of the block of `record`.
pub fn block_rows(format: &Format, record: &Record) -> Result<Vec<u8>, Refusal> {
    Ok(block(format, record)?.into_iter().map(punched).collect())
}

/// All of `rows` or, where they don't fit, none.
fn put(buffer: &mut [u8], rows: &[u8]) -> Result<u64, Refusal> {
    let front = buffer.get_mut(..rows.len()).ok_or(Refusal::new(19, rows.len()))?;
    front.copy_from_slice(rows);
    Ok(rows.len() as u64)
}

/// The characters of the block: count, then sequence, then the words from the first.
fn block(format: &Format, record: &Record) -> Result<Vec<u8>, Refusal> {
    let count = usize::try_from(record.count).unwrap_or(usize::MAX);
    let words = record.places.get(..count).ok_or(Refusal::new(16, PLACES + 1))?;
    let Opening { skip, alignment, numbered, sequence } = record.opening;
    let mut text = Vec::new();
    if skip {
        text.push(b'/');
    }
    if numbered {
        text.push(if alignment { b':' } else { b'N' });
        digits(&mut text, format.sequence, sequence).ok_or(Refusal::new(17, 0))?;
    } else if alignment || words.is_empty() || !format.unnumbered {
        return Err(Refusal::new(16, 0));
    }
    let mut due = format.items.iter();
    for (at, &(letter, value)) in words.iter().enumerate() {
        let refused = |number| Refusal::new(number, at + 1);
        let item = step_to(&mut text, format.layout, &mut due, letter).ok_or(refused(16))?;
        data(&mut text, item, value).map_err(refused)?;
    }
    text.push(LF);
    Ok(text)
}

/// The item of `letter` among those still due. Tabs are for it and for each that is passed over; then its address.
fn step_to<'f>(text: &mut Vec<u8>, layout: Layout, due: &mut impl Iterator<Item = &'f Item>, letter: u8) -> Option<&'f Item> {
    let item = due.find(|item| {
        text.extend(layout.has_tabs().then_some(HT));
        item.letter == letter
    })?;
    text.extend(layout.has_addresses().then_some(letter));
    Some(item)
}

/// The sign and the digits of a word, or the number of the refusal.
fn data(text: &mut Vec<u8>, item: &Item, value: Value) -> Result<(), u32> {
    let number = match (item.kind, value) {
        (Kind::Plain, Value::Plain(number)) => number,
        (Kind::Speed, Value::Speed(speed)) => speeds::exact_code(item.most, speed).ok_or(18u32)?,
        (Kind::Dimension { .. }, Value::Dimension(number)) => {
            match (item.sign, number < 0) {
                (Sign::Barred, true) => return Err(17),
                (Sign::Barred, false) => {}
                (_, minus) => text.push(if minus { b'-' } else { b'+' }),
            }
            number.unsigned_abs()
        }
        _ => return Err(16),
    };
    digits(text, item.most, number).ok_or(17)
}

/// Exactly `count` digits; none where the number has more.
fn digits(text: &mut Vec<u8>, count: u32, number: u64) -> Option<()> {
    let fits = number < 10u64.pow(count);
    fits.then(|| text.extend(format!("{number:0width$}", width = count as usize).bytes()))
}

#[cfg(test)]
mod tests {
    use super::*;
    use crate::reading;
    use crate::shorthand;
    use crate::specification::Specification;
    use crate::speeds::Speed;

    const PLAIN: &str = "N3.G2.X+42.F3.M2*";

    fn record(sequence: u64, words: &[Word]) -> Record {
        Record::from(&Block { opening: Opening::numbered(sequence), words: words.to_vec() })
    }

    /// Without a number, and with rubbish in its field.
    fn unnumbered(words: &[Word]) -> Record {
        let opening = Opening { sequence: u64::MAX, ..Opening::BARE };
        Record::from(&Block { opening, words: words.to_vec() })
    }

    /// What is punched into a buffer with room, or number and place.
    fn answer(edition: u32, text: &str, record: &Record) -> Result<String, (u32, u64)> {
        judged(&Specification::new(edition, text, ""), record)
    }

    fn judged(specification: &Specification, record: &Record) -> Result<String, (u32, u64)> {
        let mut buffer = vec![1; 500];
        match crate::punch_block(specification, record, &mut buffer) {
            Ok(rows) => {
                assert!(buffer[rows as usize..].iter().all(|&row| row == 1));
                let characters = buffer[..rows as usize].iter().map(|&row| {
                    assert_eq!(row, punched(row & 0x7F));
                    (row & 0x7F) as char
                });
                Ok(characters.collect())
            }
            Err(refusal) => {
                assert_eq!(buffer, vec![1; 500]);
                Err((refusal.number, refusal.place))
            }
        }
    }

    fn rate(units: u64) -> Value {
        Value::Speed(Speed::Rate(units))
    }

    fn one_word(text: &str, letter: u8, value: Value) -> Result<String, (u32, u64)> {
        answer(2539, text, &record(1, &[(letter, value)]))
    }

    #[test]
    fn a_head_needs_two_rows() {
        let mut buffer = [7; 3];
        assert_eq!(punch_head(&mut buffer[..1]), Err(Refusal::new(19, 2)));
        assert_eq!(buffer, [7; 3]);
        assert_eq!(punch_head(&mut buffer), Ok(2));
        assert_eq!(buffer, [165, 10, 7]);
    }

    #[test]
    fn the_example() {
        let first = record(1, &[(b'G', Value::Plain(1)), (b'X', Value::Dimension(12_500)), (b'F', rate(1_500_000_000))]);
        let mut second = record(2, &[(b'X', Value::Dimension(-250))]);
        second.opening.skip = true;
        assert_eq!(answer(1057, PLAIN, &first), Ok("N001\tG01\tX+012500\tF615\n".into()));
        assert_eq!(answer(1057, PLAIN, &second), Ok("/N002\t\tX-000250\n".into()));
        second.opening.alignment = true;
        assert_eq!(answer(2539, "N4G2X+042M2*", &second), Ok("/:0002X-000250\n".into()));
    }

    #[test]
    fn full_length_and_signs() {
        assert_eq!(one_word("N3X+042*", b'X', Value::Dimension(5)), Ok("N001X+000005\n".into()));
        assert_eq!(one_word("N3X+420*", b'X', Value::Dimension(500_000)), Ok("N001X+500000\n".into()));
        assert_eq!(one_word("N3XD42*", b'X', Value::Dimension(0)), Ok("N001X+000000\n".into()));
        assert_eq!(one_word("N3X42*", b'X', Value::Dimension(0)), Ok("N001X000000\n".into()));
        assert_eq!(one_word("N3T9*", b'T', Value::Plain(7)), Ok("N001T000000007\n".into()));
        assert_eq!(one_word("N3F3*", b'F', rate(0)), Ok("N001F000\n".into()));
        assert_eq!(one_word("N3F3*", b'F', rate(4_600)), Ok("N001F046\n".into()));
        assert_eq!(answer(1057, PLAIN, &record(0, &[])), Ok("N000\n".into()));
        assert_eq!(answer(1057, PLAIN, &record(999, &[(b'M', Value::Plain(2))])), Ok("N999\t\t\t\tM02\n".into()));
    }

    #[test]
    fn the_longest_block() {
        let text = "N9.G2.X+99.Y+99.Z+99.U+99.V+99.W+99.P+99.Q+99.R+99.I+99.J+99.K+99.A+99.B+99.C+99.D+99.E+99.F5.S5.T9.M2*";
        let format = shorthand::parse(2539, text.as_bytes()).unwrap();
        let most = 999_999_999_999_999_999;
        let words: Vec<Word> = format.items.iter().map(|item| (item.letter, greatest(item, most))).collect();
        let block = Block { opening: Opening { skip: true, alignment: true, ..Opening::numbered(999_999_999) }, words };
        let mut rows = vec![0; 500];
        let count = punch_block(&format, &Record::from(&block), &mut rows).unwrap() as usize;
        let tape = [&[punched(b'%'), punched(LF)], &rows[..count]].concat();
        assert_eq!(reading::read_block(&format, &tape, 0), Ok(block));
        assert_eq!(reading::block_rows(&format, &tape, 0), Ok(&rows[..count]));
    }

    fn greatest(item: &Item, dimension: i64) -> Value {
        match item.kind {
            Kind::Plain => Value::Plain(10u64.pow(item.most) - 1),
            Kind::Speed => rate(9_999_000_000_000),
            Kind::Dimension { .. } => Value::Dimension(-dimension),
        }
    }

    #[test]
    fn words_that_are_no_item() {
        let (g, x, f) = ((b'G', Value::Plain(1)), (b'X', Value::Dimension(1)), (b'F', rate(1_000)));
        let wrong = |words: &[Word]| answer(1057, PLAIN, &record(1, words)).unwrap_err();
        assert_eq!(wrong(&[g, (b'Z', Value::Dimension(1))]), (16, 2));
        assert_eq!(wrong(&[x, g]), (16, 2));
        assert_eq!(wrong(&[g, x, x, f]), (16, 3));
        assert_eq!(wrong(&[(b'N', Value::Plain(1))]), (16, 1));
        assert_eq!(wrong(&[(b'G', Value::Dimension(1))]), (16, 1));
        assert_eq!(wrong(&[(b'X', Value::Plain(1))]), (16, 1));
        assert_eq!(wrong(&[g, x, (b'F', Value::Plain(1_000))]), (16, 3));
        assert_eq!(wrong(&[g, x, (b'F', Value::Dimension(1_000))]), (16, 3));
    }

    #[test]
    fn counts() {
        let mut handed = record(1, &[(b'G', Value::Plain(1)), (b'X', Value::Dimension(1))]);
        handed.count = 1;
        assert_eq!(answer(1057, PLAIN, &handed), Ok("N001\tG01\n".into()));
        handed.count = 3;
        assert_eq!(answer(1057, PLAIN, &handed), Err((16, 3)));
        handed.count = 22;
        assert_eq!(answer(1057, PLAIN, &handed), Err((16, 3)));
        for count in [23, 1 << 32, u64::MAX] {
            handed.count = count;
            assert_eq!(answer(1057, PLAIN, &handed), Err((16, 23)));
        }
    }

    #[test]
    fn numbers_that_do_not_fit() {
        assert_eq!(answer(1057, PLAIN, &record(1_000, &[])), Err((17, 0)));
        assert_eq!(answer(2539, "N9*", &record(u64::MAX, &[])), Err((17, 0)));
        assert_eq!(one_word("N3G2*", b'G', Value::Plain(100)), Err((17, 1)));
        assert_eq!(one_word("N3X+42*", b'X', Value::Dimension(-1_000_000)), Err((17, 1)));
        assert_eq!(one_word("N3X+42*", b'X', Value::Dimension(i64::MIN)), Err((17, 1)));
        assert_eq!(one_word("N3X+99*", b'X', Value::Dimension(i64::MAX)), Err((17, 1)));
        assert_eq!(one_word("N3X42*", b'X', Value::Dimension(-1)), Err((17, 1)));
    }

    #[test]
    fn records_without_number() {
        let (g, x) = ((b'G', Value::Plain(1)), (b'X', Value::Dimension(5)));
        let mut handed = unnumbered(&[x]);
        assert_eq!(answer(2539, "N3G2X+042*", &handed), Ok("X+000005\n".into()));
        assert_eq!(answer(2539, "N9.G2.X+042*", &handed), Ok("\t\tX+000005\n".into()));
        assert_eq!(judged(&Specification::new(2539, "N3.G2.X+042*", "LTM110A"), &handed), Ok("\t\t+000005\n".into()));
        // the field kept for the number is not looked at
        for sequence in [0, 7, 999, 1_000] {
            handed.opening.sequence = sequence;
            assert_eq!(answer(2539, "N3G2X+042*", &handed), Ok("X+000005\n".into()));
        }
        handed.opening.skip = true;
        assert_eq!(answer(2539, "N3X+042*", &handed), Ok("/X+000005\n".into()));
        assert_eq!(answer(2539, "N3.G2.X+042*", &handed), Ok("/\t\tX+000005\n".into()));
        assert_eq!(answer(2539, "N3.G2.X+042*", &unnumbered(&[g, x])), Ok("\tG01\tX+000005\n".into()));
    }

    /// 16 at 0 in the sequence's turn: behind the count, and before the words and the room.
    #[test]
    fn records_that_lack_their_number() {
        let (g, x) = ((b'G', Value::Plain(1)), (b'X', Value::Dimension(5)));
        let mut neither = unnumbered(&[]);
        // nor does it help what stands past the count
        neither.places[0] = g;
        let mut alignment = unnumbered(&[g]);
        alignment.opening.alignment = true;
        for text in ["N3G2*", "N3.G2*", "N3*"] {
            assert_eq!(answer(2539, text, &neither), Err((16, 0)));
            assert_eq!(answer(2539, text, &alignment), Err((16, 0)));
        }
        for record in [&neither, &alignment, &unnumbered(&[g]), &unnumbered(&[x]), &unnumbered(&[(b'Z', Value::Plain(1))])] {
            assert_eq!(answer(1057, "N3.G2*", record), Err((16, 0)));
            let mut many = record.clone();
            many.count = 23;
            assert_eq!(answer(1057, "N3.G2*", &many), Err((16, 23)));
            assert_eq!(answer(2539, "N3.G2*", &many), Err((16, 23)));
        }
        // its words are judged where the number may be missing
        assert_eq!(answer(2539, "N3G2X+042*", &unnumbered(&[x, g])), Err((16, 2)));
        assert_eq!(answer(2539, "N3G2*", &unnumbered(&[(b'G', Value::Plain(100))])), Err((17, 1)));
        assert_eq!(answer(2539, "N3F3*", &unnumbered(&[(b'F', rate(999))])), Err((18, 1)));
        alignment.places[0] = (b'Z', Value::Plain(1));
        assert_eq!(answer(2539, "N3G2*", &alignment), Err((16, 0)));
        let format = shorthand::parse(2539, b"N3G2*").unwrap();
        assert_eq!(punch_block(&format, &neither, &mut []), Err(Refusal::new(16, 0)));
        assert_eq!(punch_block(&format, &unnumbered(&[g]), &mut [0; 3]), Err(Refusal::new(19, 4)));
        // with its number a block without words is sound
        assert_eq!(answer(2539, "N3G2*", &record(0, &[])), Ok("N000\n".into()));
    }

    #[test]
    fn speeds_without_an_exact_code() {
        for units in [999, 1_550_000_000, 10_000_000_000_000, u64::MAX] {
            assert_eq!(one_word("N3F3*", b'F', rate(units)), Err((18, 1)));
        }
        assert_eq!(one_word("N3F4*", b'F', rate(1_550_000_000)), Ok("N001F6155\n".into()));
    }

    #[test]
    fn speeds_of_two_digits() {
        let (stop, rapid) = (Value::Speed(Speed::Stop), Value::Speed(Speed::Rapid));
        assert_eq!(one_word("N3F2*", b'F', stop), Ok("N001F00\n".into()));
        assert_eq!(one_word("N3S2*", b'S', rapid), Ok("N001S99\n".into()));
        assert_eq!(one_word("N3F2*", b'F', rate(11_200_000)), Ok("N001F01\n".into()));
        assert_eq!(one_word("N3F2*", b'F', rate(800_000_000_000)), Ok("N001F98\n".into()));
        // a rate that is none of the table's has no exact code, however near it is
        for units in [0, 11_199_999, 11_200_001, 11_850_000, 800_000_000_001, u64::MAX] {
            assert_eq!(one_word("N3F2*", b'F', rate(units)), Err((18, 1)));
        }
        for text in ["N3F3*", "N3F4*", "N3F5*"] {
            assert_eq!(one_word(text, b'F', stop), Err((18, 1)));
            assert_eq!(one_word(text, b'F', rapid), Err((18, 1)));
        }
        // a kind that the item has not comes first
        assert_eq!(one_word("N3F2*", b'F', Value::Plain(46)), Err((16, 1)));
        assert_eq!(one_word("N3T2*", b'T', stop), Err((16, 1)));
        assert_eq!(answer(1057, "N3.F2*", &record(1, &[(b'F', stop)])), Err((3, 2)));
    }

    #[test]
    fn words_of_e_and_d() {
        let text = "N3.X42.E3.D+12*";
        let (e, d) = ((b'E', rate(1_500_000_000)), (b'D', Value::Dimension(7)));
        assert_eq!(answer(1057, text, &record(1, &[e, d])), Ok("N001\t\tE615\tD+007\n".into()));
        assert_eq!(answer(1057, text, &record(1, &[d, e])), Err((16, 2)));
        // the kind is the item's
        assert_eq!(answer(1057, text, &record(1, &[(b'E', Value::Dimension(7))])), Err((16, 1)));
        assert_eq!(answer(1057, text, &record(1, &[e, (b'D', rate(4_600))])), Err((16, 2)));
        assert_eq!(answer(1057, text, &record(1, &[(b'E', rate(1_550_000_000))])), Err((18, 1)));
        assert_eq!(one_word("N3E42D3*", b'D', rate(0)), Ok("N001D000\n".into()));
    }

    #[test]
    fn the_order_of_refusals() {
        let (z, g) = ((b'Z', Value::Plain(1)), (b'G', Value::Plain(100)));
        let mut handed = record(1_000, &[z]);
        handed.count = 23;
        assert_eq!(answer(1058, "N3G2*", &handed), Err((1, 0)));
        assert_eq!(answer(1057, "N3G2*", &handed), Err((3, 2)));
        assert_eq!(answer(1057, "N3G", &handed), Err((3, 2)));
        assert_eq!(answer(2539, "N3G", &handed), Err((2, 3)));
        assert_eq!(answer(1057, "N3.G2*", &handed), Err((16, 23)));
        handed.count = 1;
        assert_eq!(answer(1057, "N3.G2*", &handed), Err((17, 0)));
        assert_eq!(answer(1057, "N3.G2*", &record(1, &[g, z])), Err((17, 1)));
        assert_eq!(answer(1057, "N3.G2*", &record(1, &[z, g])), Err((16, 1)));
    }

    #[test]
    fn a_profile_is_judged_before_the_record() {
        let mut handed = record(1_000, &[(b'Z', Value::Plain(1))]);
        handed.count = 23;
        let refused = |shorthand, profile| judged(&Specification::new(1057, shorthand, profile), &handed).unwrap_err();
        assert_eq!(refused("N3G2*", "IPM11"), (3, 2));
        assert_eq!(refused("N3.X42*", "IPM11"), (22, 5));
        assert_eq!(refused("N3.X42*", "IPM121"), (23, 0));
        assert_eq!(refused("N3.X42*", "IPM111"), (16, 23));
    }

    #[test]
    fn tabs_and_no_addresses() {
        let specification = Specification::new(2539, "N3.G2.X+042.Y420.F3.M2*", "LTM221A");
        let punched = |words: &[Word]| judged(&specification, &record(1, words));
        let (g, x, m) = ((b'G', Value::Plain(1)), (b'X', Value::Dimension(0)), (b'M', Value::Plain(2)));
        assert_eq!(punched(&[]), Ok("N001\n".into()));
        assert_eq!(punched(&[g]), Ok("N001\t01\n".into()));
        // all digits, and a sign in every signed item
        assert_eq!(punched(&[x]), Ok("N001\t\t+000000\n".into()));
        assert_eq!(punched(&[g, (b'X', Value::Dimension(-5)), m]), Ok("N001\t01\t-000005\t\t\t02\n".into()));
        let (y, f) = ((b'Y', Value::Dimension(500_000)), (b'F', rate(1_500_000_000)));
        assert_eq!(punched(&[y, f]), Ok("N001\t\t\t500000\t615\n".into()));
        // the letter is the item's all the same
        assert_eq!(punched(&[x, g]), Err((16, 2)));
        assert_eq!(punched(&[(b'Z', Value::Dimension(0))]), Err((16, 1)));
        assert_eq!(punched(&[(b'Y', Value::Dimension(-1))]), Err((17, 1)));
        assert_eq!(punched(&[g, (b'F', rate(999))]), Err((18, 2)));
        let mut buffer = [7; 8];
        assert_eq!(crate::punch_block(&specification, &record(1, &[m]), &mut buffer), Err(Refusal::new(19, 12)));
        assert_eq!(crate::punch_block(&specification, &record(1, &[g]), &mut buffer), Ok(8));
        assert_eq!(buffer, [78, 48, 48, 177, 9, 48, 177, 10]);
    }

    #[test]
    fn a_buffer_too_small() {
        let format = shorthand::parse(1057, PLAIN.as_bytes()).unwrap();
        let handed = record(1, &[(b'G', Value::Plain(1))]);
        let mut buffer = [7; 10];
        for room in 0..9 {
            assert_eq!(punch_block(&format, &handed, &mut buffer[..room]), Err(Refusal::new(19, 9)));
        }
        assert_eq!(punch_block(&format, &record(1_000, &[]), &mut []), Err(Refusal::new(17, 0)));
        assert_eq!(punch_block(&format, &record(1, &[]), &mut []), Err(Refusal::new(19, 5)));
        assert_eq!(buffer, [7; 10]);
        assert_eq!(punch_block(&format, &handed, &mut buffer), Ok(9));
        assert_eq!(buffer, [78, 48, 48, 177, 9, 71, 48, 177, 10, 7]);
    }
}
