//! The format shorthand: its items, and refusals 1 to 3 with their places.

use crate::Refusal;

/// The letters of word items, in the order that they have where E and D are dimensions.
pub const ORDER: &[u8; 22] = b"GXYZUVWPQRIJKABCDEFSTM";
/// The letters of dimensions in their order.
pub const DIMENSIONS: &[u8; 17] = b"XYZUVWPQRIJKABCDE";

/// The two editions.
#[derive(Clone, Copy, Debug, PartialEq, Eq)]
pub enum Edition {
    /// ISO 1057
    Iso1057,
    /// ISO 2539
    Iso2539,
}

impl Edition {
    /// The edition of that number, if there is one.
    pub fn numbered(number: u32) -> Option<Edition> {
        match number {
            1057 => Some(Edition::Iso1057),
            2539 => Some(Edition::Iso2539),
            _ => None,
        }
    }
}

/// Whether a sign stands after an address.
#[derive(Clone, Copy, Debug, PartialEq, Eq)]
pub enum Sign {
    /// never
    Barred,
    /// a missing one means plus
    Optional,
    /// always
    Required,
}

/// The mark of a dimension item.
#[derive(Clone, Copy, Debug, PartialEq, Eq)]
pub enum Mark {
    /// none: absolute, never a sign
    Bare,
    /// "+": absolute and signed
    Absolute,
    /// "D": incremental and signed
    Incremental,
}

/// Which zeros of a dimension may be dropped.
#[derive(Clone, Copy, Debug, PartialEq, Eq)]
pub enum Dropped {
    /// none: two digits in the shorthand
    None,
    /// `0ab`
    Leading,
    /// `ab0`
    Trailing,
}

/// What a word's digits mean.
#[derive(Clone, Copy, Debug, PartialEq, Eq)]
pub enum Kind {
    /// G, M and T
    Plain,
    /// F and S, and E and D where they are feeds
    Speed,
    /// all others
    Dimension {
        /// its mark
        mark: Mark,
        /// how many of its digits stand before the implied point
        before: u32,
        /// which zeros may be dropped
        dropped: Dropped,
    },
}

/// One word item.
#[derive(Clone, Copy, Debug, PartialEq, Eq)]
pub struct Item {
    /// the address
    pub letter: u8,
    /// what its digits mean
    pub kind: Kind,
    /// its sign
    pub sign: Sign,
    /// the fewest digits that may stand
    pub least: u32,
    /// the most
    pub most: u32,
}

/// What tells the words of a tape apart.
#[derive(Clone, Copy, Debug, PartialEq, Eq)]
pub enum Layout {
    /// their addresses: a shorthand without dots
    Addresses,
    /// tabs, and addresses behind them: a shorthand with dots
    Both,
    /// tabs alone: dots, and a profile that says T
    Tabs,
}

impl Layout {
    /// Whether a tab steps to each item.
    pub fn has_tabs(self) -> bool {
        self != Layout::Addresses
    }

    /// Whether a word begins with its address.
    pub fn has_addresses(self) -> bool {
        self != Layout::Tabs
    }
}

/// What a tape is read by.
#[derive(Clone, Debug, PartialEq, Eq)]
pub struct Format {
    /// how many digits stand after N or ":"
    pub sequence: u32,
    /// whether a block may have no sequence number
    pub unnumbered: bool,
    /// what tells its words apart
    pub layout: Layout,
    /// the word items in their order
    pub items: Vec<Item>,
}

impl Item {
    fn is_dimension(&self) -> bool {
        matches!(self.kind, Kind::Dimension { .. })
    }

    /// F, and E and D where they are the second and third feed.
    fn is_feed(&self) -> bool {
        self.kind == Kind::Speed && self.letter != b'S'
    }
}

/// The format of `text` by the edition numbered `edition`, with addresses on the tape.
pub fn parse(edition: u32, text: &[u8]) -> Result<Format, Refusal> {
    let edition = Edition::numbered(edition).ok_or(Refusal::new(1, 0))?;
    let (sequence, mut at) = sequence_item(edition, text)?;
    let unnumbered = edition == Edition::Iso2539;
    let mut format = Format { sequence, unnumbered, layout: Layout::Addresses, items: Vec::with_capacity(ORDER.len()) };
    loop {
        match text.get(at) {
            None => return Err(Refusal::new(2, text.len())),
            Some(b'*') if at + 1 == text.len() => return Ok(format),
            Some(b'*') => return Err(Refusal::new(2, at + 1)),
            Some(&first) => {
                let dot = first == b'.';
                if format.items.is_empty() {
                    format.layout = if dot { Layout::Both } else { Layout::Addresses };
                } else if format.layout.has_tabs() != dot {
                    return Err(Refusal::new(2, at));
                }
                let (item, end) = word_item(edition, text, at, &format.items)?;
                format.items.push(item);
                at = end;
            }
        }
    }
}

/// N and its one digit: the digit, and where the item ends.
fn sequence_item(edition: Edition, text: &[u8]) -> Result<(u32, usize), Refusal> {
    if text.first().is_some_and(|&letter| letter != b'N') {
        return Err(Refusal::new(2, 0));
    }
    let end = digits_end(text, 1);
    match text.get(1..end).unwrap_or(&[]) {
        [] if end >= text.len() => Err(Refusal::new(2, text.len())),
        [b'3'] => Ok((3, end)),
        [b'4'..=b'9'] if edition == Edition::Iso1057 => Err(Refusal::new(3, 0)),
        &[digit @ b'4'..=b'9'] => Ok((u32::from(digit - b'0'), end)),
        _ => Err(Refusal::new(2, 0)),
    }
}

/// The word item whose first byte stands at `at`, behind the items that `stood`: the item, and where it ends.
fn word_item(edition: Edition, text: &[u8], at: usize, stood: &[Item]) -> Result<(Item, usize), Refusal> {
    let dot = text[at] == b'.';
    let (letter, data, end) = bytes_of_item(text, at + usize::from(dot));
    let open = end == text.len();
    // a dot that ends the text waits for any letter
    let letters = letter.map_or(ORDER.as_slice(), std::slice::from_ref);
    // only 2539 has items without dots
    let mended_by = |edition| {
        (dot || edition == Edition::Iso2539) && letters.iter().any(|&letter| can_be_mended(edition, stood, letter, data, open))
    };
    if !mended_by(Edition::Iso2539) {
        return Err(Refusal::new(2, at));
    }
    if !mended_by(edition) {
        return Err(Refusal::new(3, at));
    }
    let as_it_is = letter.and_then(|&letter| {
        let mut roles = roles(letter).iter().filter(|&&role| may_stand(stood, letter, role));
        roles.find_map(|&role| item_of(edition, letter, role, data))
    });
    as_it_is.map(|item| (item, end)).ok_or(Refusal::new(2, text.len()))
}

/// The letter that stands at `address`, none at the end of the text; the mark and all the digits that stand together
/// behind it; and where they end.
fn bytes_of_item(text: &[u8], address: usize) -> (Option<&u8>, &[u8], usize) {
    let Some(letter) = text.get(address) else { return (None, &[], text.len()) };
    let start = address + 1;
    let marked = matches!(text.get(start), Some(b'+' | b'D'));
    let end = digits_end(text, start + usize::from(marked));
    (Some(letter), &text[start..end], end)
}

/// Whether `letter` and `data` are an item that may stand behind those that `stood` or, where they end the text and so
/// are `open`, whether further bytes could make them one. A shorthand may end behind any item, so that nothing more
/// needs to be looked for.
fn can_be_mended(edition: Edition, stood: &[Item], letter: u8, data: &[u8], open: bool) -> bool {
    roles(letter).iter().any(|&role| may_stand(stood, letter, role) && can_be(edition, letter, role, data, open))
}

/// Whether `data` or, where they are `open`, some continuation of them is in form for `letter` in that role.
fn can_be(edition: Edition, letter: u8, role: Role, data: &[u8], open: bool) -> bool {
    let further: &[u8] = if !open || data.len() >= most_data(role) {
        b""
    } else if data.is_empty() {
        b"+D0123456789"
    } else {
        b"0123456789"
    };
    item_of(edition, letter, role, data).is_some()
        || further.iter().any(|&byte| can_be(edition, letter, role, &[data, &[byte]].concat(), open))
}

/// What an item can be in the order of a shorthand.
#[derive(Clone, Copy, PartialEq, Eq)]
enum Role {
    /// G, T and M
    Plain,
    /// S and the feeds
    Speed,
    Dimension,
}

/// What an item of `letter` can be. Of E and D their mark and digits say it.
fn roles(letter: u8) -> &'static [Role] {
    match letter {
        b'G' | b'T' | b'M' => &[Role::Plain],
        b'F' | b'S' => &[Role::Speed],
        b'E' | b'D' => &[Role::Speed, Role::Dimension],
        _ if DIMENSIONS.contains(&letter) => &[Role::Dimension],
        _ => &[],
    }
}

/// The most bytes behind an item's letter: one digit, or a mark and three.
fn most_data(role: Role) -> usize {
    match role {
        Role::Plain | Role::Speed => 1,
        Role::Dimension => 4,
    }
}

/// The item of `letter` in that role with those `data`; none where they are out of form or beyond the edition.
fn item_of(edition: Edition, letter: u8, role: Role, data: &[u8]) -> Option<Item> {
    let of_all = |kind, digits| Some(Item { letter, kind, sign: Sign::Barred, least: digits, most: digits });
    match (role, letter, data) {
        (Role::Plain, b'G' | b'M', b"2") => of_all(Kind::Plain, 2),
        (Role::Plain, b'T', &[digit @ b'1'..=b'9']) => of_all(Kind::Plain, value(digit)),
        (Role::Speed, _, &[digit @ b'3'..=b'5']) => of_all(Kind::Speed, value(digit)),
        (Role::Speed, b'F' | b'S', b"2") if edition == Edition::Iso2539 => of_all(Kind::Speed, 2),
        (Role::Dimension, b'I' | b'J' | b'K', _) if edition == Edition::Iso1057 => None,
        (Role::Dimension, _, _) => dimension_of(edition, letter, data),
        _ => None,
    }
}

/// The dimension of `letter` with that mark and those digits.
fn dimension_of(edition: Edition, letter: u8, data: &[u8]) -> Option<Item> {
    let (mark, digits) = match data {
        [b'+', digits @ ..] => (Mark::Absolute, digits),
        [b'D', digits @ ..] => (Mark::Incremental, digits),
        digits => (Mark::Bare, digits),
    };
    if !digits.iter().all(u8::is_ascii_digit) {
        return None;
    }
    let (before, behind, dropped) = match *digits {
        [b'0', b'0'] => return None,
        [a, b] => (value(a), value(b), Dropped::None),
        _ if edition == Edition::Iso1057 => return None,
        [b'0', a, b @ b'1'..=b'9'] => (value(a), value(b), Dropped::Leading),
        [a @ b'1'..=b'9', b, b'0'] => (value(a), value(b), Dropped::Trailing),
        _ => return None,
    };
    let sign = match (mark, edition) {
        (Mark::Bare, _) => Sign::Barred,
        (_, Edition::Iso1057) => Sign::Required,
        (_, Edition::Iso2539) => Sign::Optional,
    };
    let most = before + behind;
    let least = if dropped == Dropped::None { most } else { 1 };
    Some(Item { letter, kind: Kind::Dimension { mark, before, dropped }, sign, least, most })
}

fn value(digit: u8) -> u32 {
    u32::from(digit - b'0')
}

/// Whether an item of `letter` in that role may stand behind the items that `stood`, which are where they may be.
fn may_stand(stood: &[Item], letter: u8, role: Role) -> bool {
    let last_dimension = stood.iter().rposition(Item::is_dimension);
    let g2 = stood.iter().position(|earlier| earlier.letter == b'G');
    // what stands behind the last dimension or, if there is none, behind G2 or N
    let behind = &stood[last_dimension.or(g2).map_or(0, |at| at + 1)..];
    // whether as feed or as dimension
    let once = stood.iter().all(|earlier| earlier.letter != letter);
    once && match (role, letter) {
        (Role::Plain, b'G') => stood.is_empty(),
        (Role::Dimension, _) => {
            let in_order = last_dimension.is_none_or(|at| rank(stood[at].letter) < rank(letter));
            // the feed of the dimension before it
            let one_feed = last_dimension.is_some() && matches!(behind, [Item { letter: b'E' | b'D', .. }]);
            in_order && (behind.is_empty() || one_feed)
        }
        // S stands behind the feeds, and they in any order
        (Role::Speed, _) => behind.iter().all(Item::is_feed),
        (Role::Plain, b'T') => behind.iter().all(|earlier| earlier.is_feed() || earlier.letter == b'S'),
        // M stands behind all others
        (Role::Plain, _) => true,
    }
}

fn rank(dimension: u8) -> Option<usize> {
    DIMENSIONS.iter().position(|&letter| letter == dimension)
}

/// Where the digits that stand together from `start` on end.
fn digits_end(text: &[u8], start: usize) -> usize {
    let rest = text.get(start..).unwrap_or(&[]);
    start + rest.iter().take_while(|byte| byte.is_ascii_digit()).count()
}

#[cfg(test)]
mod by_search;

#[cfg(test)]
mod tests {
    use super::*;

    /// The number and place that `text` is refused with; 0 0 where it is a format.
    fn answer(edition: u32, text: &str) -> (u32, u64) {
        match parse(edition, text.as_bytes()) {
            Ok(_) => (0, 0),
            Err(refusal) => (refusal.number, refusal.place),
        }
    }

    #[test]
    fn the_cases_of_the_rules() {
        assert_eq!(answer(2539, "N3X+040*"), (2, 2));
        assert_eq!(answer(1057, "N3.X+042*"), (3, 2));
        assert_eq!(answer(1057, "N3.G2.X+42.F3.M2*"), (0, 0));
        assert_eq!(answer(1058, ""), (1, 0));
    }

    #[test]
    fn the_sequence_item() {
        for edition in [1057, 2539] {
            assert_eq!(answer(edition, ""), (2, 0));
            assert_eq!(answer(edition, "N"), (2, 1));
            assert_eq!(answer(edition, "N3"), (2, 2));
            assert_eq!(answer(edition, "N2"), (2, 0));
            assert_eq!(answer(edition, "N33*"), (2, 0));
            assert_eq!(answer(edition, "N*"), (2, 0));
            assert_eq!(answer(edition, "*"), (2, 0));
            assert_eq!(answer(edition, ".N3*"), (2, 0));
            assert_eq!(answer(edition, "N3*"), (0, 0));
            assert_eq!(answer(edition, "N3**"), (2, 3));
        }
        assert_eq!(answer(1057, "N4*"), (3, 0));
        assert_eq!(answer(2539, "N9*"), (0, 0));
    }

    #[test]
    fn the_dots() {
        assert_eq!(answer(1057, "N3X42*"), (3, 2));
        assert_eq!(answer(1057, "N3X"), (3, 2));
        assert_eq!(answer(2539, "N3X"), (2, 3));
        assert_eq!(answer(1057, "N3X142*"), (2, 2));
        assert_eq!(answer(2539, "N3X42.Y42*"), (2, 5));
        assert_eq!(answer(2539, "N3.X42Y42*"), (2, 6));
        assert_eq!(answer(1057, "N3."), (2, 3));
        assert_eq!(answer(1057, "N3.*"), (2, 2));
        assert_eq!(answer(1057, "N3..G2*"), (2, 2));
        assert_eq!(answer(1057, "N3.M2."), (2, 5));
        assert_eq!(answer(1057, "N3.T2."), (2, 6));
    }

    #[test]
    fn the_dimensions() {
        assert_eq!(answer(2539, "N3.X00"), (2, 6));
        assert_eq!(answer(1057, "N3.X00"), (3, 2));
        assert_eq!(answer(2539, "N3.X00*"), (2, 2));
        assert_eq!(answer(2539, "N3.X005*"), (0, 0));
        assert_eq!(answer(2539, "N3.X500*"), (0, 0));
        assert_eq!(answer(2539, "N3.X142*"), (2, 2));
        assert_eq!(answer(2539, "N3.X0421*"), (2, 2));
        assert_eq!(answer(1057, "N3.X0"), (2, 5));
        assert_eq!(answer(1057, "N3.XD"), (2, 5));
        assert_eq!(answer(1057, "N3.X+*"), (2, 2));
        assert_eq!(answer(1057, "N3.X42+"), (2, 6));
        assert_eq!(answer(1057, "N3.I42*"), (3, 2));
        assert_eq!(answer(1057, "N3.I"), (3, 2));
        assert_eq!(answer(2539, "N3.DD42*"), (0, 0));
    }

    #[test]
    fn the_items() {
        let item = |edition, text: &str| parse(edition, text.as_bytes()).unwrap().items[0];
        let dimension = |mark, before, dropped| Kind::Dimension { mark, before, dropped };
        let made = |letter, kind, sign, least, most| Item { letter, kind, sign, least, most };
        assert_eq!(item(1057, "N3.G2*"), made(b'G', Kind::Plain, Sign::Barred, 2, 2));
        assert_eq!(item(2539, "N3T9*"), made(b'T', Kind::Plain, Sign::Barred, 9, 9));
        assert_eq!(item(1057, "N3.S4*"), made(b'S', Kind::Speed, Sign::Barred, 4, 4));
        assert_eq!(item(2539, "N3F2*"), made(b'F', Kind::Speed, Sign::Barred, 2, 2));
        assert_eq!(item(1057, "N3.E3*"), made(b'E', Kind::Speed, Sign::Barred, 3, 3));
        assert_eq!(item(2539, "N3D5*"), made(b'D', Kind::Speed, Sign::Barred, 5, 5));
        assert_eq!(item(1057, "N3.D53*"), made(b'D', dimension(Mark::Bare, 5, Dropped::None), Sign::Barred, 8, 8));
        assert_eq!(item(1057, "N3.X42*"), made(b'X', dimension(Mark::Bare, 4, Dropped::None), Sign::Barred, 6, 6));
        assert_eq!(item(1057, "N3.X+42*"), made(b'X', dimension(Mark::Absolute, 4, Dropped::None), Sign::Required, 6, 6));
        assert_eq!(item(2539, "N3.DD042*"), made(b'D', dimension(Mark::Incremental, 4, Dropped::Leading), Sign::Optional, 1, 6));
        assert_eq!(item(2539, "N3.E+420*"), made(b'E', dimension(Mark::Absolute, 4, Dropped::Trailing), Sign::Optional, 1, 6));
    }

    #[test]
    fn the_order() {
        assert_eq!(answer(2539, "N3.Y42.X42*"), (2, 6));
        assert_eq!(answer(2539, "N3.X42.X42*"), (2, 6));
        assert_eq!(answer(2539, "N3.F3.X42*"), (2, 5));
        assert_eq!(answer(2539, "N3.S3.F3*"), (2, 5));
        assert_eq!(answer(2539, "N3.G3*"), (2, 2));
        assert_eq!(answer(2539, "N3.T0*"), (2, 2));
        assert_eq!(answer(2539, "N3.F6*"), (2, 2));
        assert_eq!(answer(2539, "N3.n2*"), (2, 2));
        assert_eq!(answer(1057, "N3.I42.X42.Y9*"), (3, 2));
    }

    /// Both editions answer the same.
    fn both(text: &str) -> (u32, u64) {
        assert_eq!(answer(1057, text), answer(2539, text), "{text}");
        answer(2539, text)
    }

    #[test]
    fn the_worked_cases_of_feeds() {
        // two feeds behind a dimension are sound until a dimension follows
        assert_eq!(both("N3.X42.E3.D3*"), (0, 0));
        assert_eq!(both("N3.X42.E3.D3.Y42*"), (2, 12));
        assert_eq!(both("N3.E3.X42*"), (2, 5));
        assert_eq!(both("N3.X42.E3.E3*"), (2, 9));
        assert_eq!(both("N3.X42.E4.Y42.E42*"), (2, 13));
        // `E01` could still be meant, but not behind F
        assert_eq!(both("N3.X42.E0"), (2, 9));
        assert_eq!(both("N3.X42.F3.E0"), (2, 9));
    }

    #[test]
    fn feeds_where_they_may_stand() {
        // one directly behind a dimension
        assert_eq!(both("N3.X42.E3*"), (0, 0));
        // one behind each of two, in either order of the letters
        assert_eq!(both("N3.X42.E3.Y42.D4*"), (0, 0));
        assert_eq!(both("N3.X42.D4.Y42.E3*"), (0, 0));
        // behind the last dimension in any order
        assert_eq!(both("N3.X42.D5.Y42.F3.E3*"), (0, 0));
        assert_eq!(both("N3.X42.F3.D3.E3*"), (0, 0));
        assert_eq!(both("N3.X42.E3.F4.D5.S3.T2.M2*"), (0, 0));
        // without a dimension, behind N or G2
        assert_eq!(both("N3.E3.D3.F3*"), (0, 0));
        assert_eq!(both("N3.G2.F4.E5*"), (0, 0));
        // two digits are a dimension: X has the feed E, and D is the next dimension
        assert_eq!(both("N3.X42.E3.D42*"), (0, 0));
        assert_eq!(both("N3.X42.D3.E33.F3*"), (0, 0));
        // D stands before E among dimensions, but a feed D may stand behind the dimension E
        assert_eq!(both("N3.E42.D3*"), (0, 0));
        // without dots, which are required in 1057
        assert_eq!(answer(2539, "N3X42E3Y42D3F3*"), (0, 0));
        assert_eq!(answer(1057, "N3X42E3Y42D3F3*"), (3, 2));
        // a D directly behind a letter is its mark, so this is the feed E and the dimension D
        assert_eq!(answer(2539, "N3X42E3DD42*"), (0, 0));
        // zeros dropped in a dimension behind a feed
        assert_eq!(answer(2539, "N3.X42.D3.E042*"), (0, 0));
        // I may follow X's feed by 2539
        assert_eq!(answer(2539, "N3.X42.E3.I42*"), (0, 0));
        assert_eq!(answer(1057, "N3.X42.E3.I42*"), (3, 9));
    }

    #[test]
    fn feeds_in_other_places() {
        // F stands only behind the last dimension, so the fault is the dimension behind it
        assert_eq!(both("N3.X42.F3.Y42*"), (2, 9));
        assert_eq!(both("N3.X42.E3.F3.Y42*"), (2, 12));
        // no dimension by either edition, whatever else I would be
        assert_eq!(both("N3.X42.E3.D3.I42*"), (2, 12));
        // a feed behind N or G2 says that no dimension follows
        assert_eq!(both("N3.G2.E3.X42*"), (2, 8));
        // G2 stands first: `N3.E3*` is sound, so it is the fault
        assert_eq!(both("N3.E3.G2*"), (2, 5));
        // S, T and M stand behind all feeds
        assert_eq!(both("N3.X42.S3.E3*"), (2, 9));
        assert_eq!(both("N3.T2.D"), (2, 5));
        assert_eq!(both("N3.M2.F3*"), (2, 5));
        // the order of dimensions goes on behind a feed
        assert_eq!(both("N3.Y42.E3.X42*"), (2, 9));
        assert_eq!(both("N3.X42.E3.X42*"), (2, 9));
        // a letter once, whichever it is first
        assert_eq!(both("N3.E42.E3*"), (2, 6));
        assert_eq!(both("N3.X42.E3.E42*"), (2, 9));
        assert_eq!(both("N3.X42.D3.Y42.D3*"), (2, 13));
        assert_eq!(both("N3.F3.E3.F3*"), (2, 8));
        // two digits behind the dimension E are a dimension D out of order
        assert_eq!(both("N3.E42.D42*"), (2, 6));
        // each item has a dot or none has
        assert_eq!(both("N3.X42E3*"), (2, 6));
        assert_eq!(answer(2539, "N3E3.D3*"), (2, 4));
    }

    #[test]
    fn feeds_out_of_form() {
        // a feed has 3, 4 or 5, a dimension more digits
        for digit in [0, 1, 2, 6, 7, 8, 9] {
            assert_eq!(both(&format!("N3.X42.E{digit}*")), (2, 6));
            assert_eq!(both(&format!("N3.X42.D{digit}.F3*")), (2, 6));
        }
        // neither without a digit
        assert_eq!(both("N3.E*"), (2, 2));
        // a mark makes it a dimension, and one digit is too few
        assert_eq!(both("N3.X42.E+3*"), (2, 6));
        assert_eq!(answer(2539, "N3ED3*"), (2, 2));
        // the digits are all that stand together: not the feed E3 and more
        assert_eq!(both("N3.X42.E345*"), (2, 6));
        assert_eq!(both("N3.X42.F3.E34*"), (2, 9));
        // three digits are beyond 1057, and so is no dot; out of form comes before both
        assert_eq!(answer(1057, "N3.X42.E042*"), (3, 6));
        assert_eq!(answer(1057, "N3E3*"), (3, 2));
        assert_eq!(answer(1057, "N3E2*"), (2, 2));
        assert_eq!(answer(1057, "N3.X42.F3.E042*"), (2, 9));
    }

    #[test]
    fn speeds_of_two_digits() {
        for (text, place) in [("N3.F2*", 2), ("N3.S2*", 2), ("N3.X42.E3.F2.S2*", 9), ("N3.F3.S2.M2*", 5), ("N3.G2.F2", 5)] {
            // beyond 1057 whatever follows
            assert_eq!(answer(1057, text), (3, place), "{text}");
            let whole = text.ends_with('*');
            assert_eq!(answer(2539, text), if whole { (0, 0) } else { (2, text.len() as u64) }, "{text}");
        }
        assert_eq!(answer(2539, "N3F2S2T2M2*"), (0, 0));
        assert_eq!(answer(1057, "N3F2*"), (3, 2));
        // F3 could be meant
        assert_eq!(both("N3.F"), (2, 4));
        // out of form in either edition: the other feeds, more digits, a mark; and then in the wrong place
        for text in ["N3.E2*", "N3.D2*", "N3.F22*", "N3.S02*", "N3.F+2*", "N3.SD2"] {
            assert_eq!(both(text), (2, 2), "{text}");
        }
        assert_eq!(both("N3.S3.F2*"), (2, 5));
        assert_eq!(both("N3.F3.F2*"), (2, 5));
        assert_eq!(both("N3.X42.F3.E2*"), (2, 9));
        assert_eq!(answer(2539, "N3.X42.F2.Y42*"), (2, 9));
        assert_eq!(answer(1057, "N3.X42.F2.Y42*"), (3, 6));
        // E23 could be meant where a dimension is due
        assert_eq!(both("N3.E2"), (2, 5));
        assert_eq!(both("N3.E23*"), (0, 0));
        assert_eq!(answer(2539, "N3.F2.E2"), (2, 5));
    }

    #[test]
    fn feeds_at_the_end_of_the_text() {
        // E3 or E31 could be meant
        assert_eq!(both("N3.X42.E"), (2, 8));
        assert_eq!(both("N3.X42.E3"), (2, 9));
        // no feed, but E21 could be meant; with a mark, E+31
        assert_eq!(both("N3.X42.E2"), (2, 9));
        assert_eq!(both("N3.X42.E+3"), (2, 10));
        // behind X's feed D a dimension may stand: E01
        assert_eq!(both("N3.X42.D3.E0"), (2, 12));
        // no dimension may stand behind F, behind two feeds, behind a feed of none, behind the dimension E
        assert_eq!(both("N3.X42.F3.E"), (2, 11));
        assert_eq!(both("N3.X42.F3.E3"), (2, 12));
        assert_eq!(both("N3.X42.F3.E2"), (2, 9));
        assert_eq!(both("N3.X42.F3.E+"), (2, 9));
        assert_eq!(both("N3.X42.F3.E34"), (2, 9));
        assert_eq!(both("N3.X42.E3.D3.F"), (2, 14));
        assert_eq!(both("N3.X42.E3.D3.C"), (2, 12));
        assert_eq!(both("N3.D3.E0"), (2, 5));
        assert_eq!(both("N3.D3.E"), (2, 7));
        assert_eq!(both("N3.E42.D"), (2, 8));
        assert_eq!(both("N3.E42.D4"), (2, 9));
        assert_eq!(both("N3.E42.D2"), (2, 6));
        assert_eq!(both("N3.E42.DD"), (2, 6));
        // the letter has stood
        assert_eq!(both("N3.X42.E3.Y42.E"), (2, 13));
        assert_eq!(both("N3.E3.F3.E"), (2, 8));
        // `00` could become E001, which is beyond 1057; behind F nothing could
        assert_eq!(answer(2539, "N3.X42.E00"), (2, 10));
        assert_eq!(answer(1057, "N3.X42.E00"), (3, 6));
        assert_eq!(both("N3.X42.F3.E00"), (2, 9));
        // a dot waits for any item that may still stand: none behind M2
        assert_eq!(both("N3.X42.E3.D3."), (2, 13));
        assert_eq!(both("N3.X42.E3.M2."), (2, 12));
        // without dots, by 2539: E with the mark D could become ED31, but not behind F
        assert_eq!(answer(2539, "N3ED3"), (2, 5));
        assert_eq!(answer(2539, "N3F3ED"), (2, 4));
        assert_eq!(answer(2539, "N3E2"), (2, 4));
        // and by 1057 each of these lacks its dot
        assert_eq!(answer(1057, "N3ED3"), (3, 2));
        assert_eq!(answer(1057, "N3E2"), (3, 2));
    }
}
