//! Numbers, prefixes and routes, read from the words of a line.

/// The mask of the first `length` bits of an address (0 to 32).
pub fn mask_of(length: u8) -> u32 {
    u32::MAX.checked_shl(32 - u32::from(length)).unwrap_or(0)
}

/// An address with the bits past the length cleared, and the length (0 to 32).
#[derive(Clone, Copy, Debug, PartialEq, Eq)]
pub struct Prefix {
    pub address: u32,
    pub length: u8,
}

impl Prefix {
    pub fn new(address: u32, length: u8) -> Option<Prefix> {
        (length <= 32).then(|| Prefix { address: address & mask_of(length), length })
    }

    pub fn contains(self, address: u32) -> bool {
        (self.address ^ address) & mask_of(self.length) == 0
    }

    /// Whether this prefix lies within the other one, or equals it.
    pub fn is_within(self, other: Prefix) -> bool {
        other.length <= self.length && other.contains(self.address)
    }
}

/// The prefix of a node for which none is set, `10.V.0.0/16`.
pub fn default_prefix(node: u16) -> Prefix {
    Prefix { address: 0x0a00_0000 | u32::from(node) << 16, length: 16 }
}

/// What a filter is shown: the prefix, the metric as it was received, and the size of the network, which is also the
/// metric of what cannot be reached.
#[derive(Clone, Copy, Debug)]
pub struct Route {
    pub net: Prefix,
    pub metric: u32,
    pub size: u32,
}

impl Route {
    pub fn new(net: Prefix, metric: u32, size: u32) -> Option<Route> {
        ((2..=250).contains(&size) && metric <= size).then_some(Route { net, metric, size })
    }
}

fn digit_at(text: &[u8], place: usize) -> Option<u32> {
    text.get(place).filter(|byte| byte.is_ascii_digit()).map(|byte| u32::from(byte - b'0'))
}

/// The decimal digits at the front of `text` as a number, by value (any number of zeros may lead), and what follows
/// them. None where there is no digit. A number that no `u32` holds gives the greatest one.
#[inline(always)]
fn leading_number(text: &[u8]) -> Option<(u32, &[u8])> {
    let first = digit_at(text, 0)?;
    let Some(second) = digit_at(text, 1) else { return Some((first, &text[1..])) };
    let Some(third) = digit_at(text, 2) else { return Some((first * 10 + second, &text[2..])) };
    if digit_at(text, 3).is_some() {
        return Some(long_number(text));
    }
    Some((first * 100 + second * 10 + third, &text[3..]))
}

/// The same, of any number of digits.
#[cold]
fn long_number(text: &[u8]) -> (u32, &[u8]) {
    let mut value: u32 = 0;
    let mut rest = text;
    while let [digit @ b'0'..=b'9', more @ ..] = rest {
        value = value.saturating_mul(10).saturating_add(u32::from(digit - b'0'));
        rest = more;
    }
    (value, rest)
}

fn after(sign: u8, text: &[u8]) -> Option<&[u8]> {
    match text {
        [first, rest @ ..] if *first == sign => Some(rest),
        _ => None,
    }
}

fn leading_group(text: &[u8]) -> Option<(u32, &[u8])> {
    leading_number(text).filter(|(group, _)| *group <= 255)
}

/// The prefix at the front of `text`, and what follows its digits: four groups of at most 255 joined by dots, `/`, a
/// length of at most 32.
fn leading_prefix(text: &[u8]) -> Option<(Prefix, &[u8])> {
    let (mut address, mut rest) = leading_group(text)?;
    for _ in 1..4 {
        let (group, more) = leading_group(after(b'.', rest)?)?;
        address = address << 8 | group;
        rest = more;
    }
    let (length, rest) = leading_number(after(b'/', rest)?)?;
    Some((Prefix::new(address, u8::try_from(length).ok()?)?, rest))
}

fn after_blanks(text: &[u8]) -> &[u8] {
    let mut rest = text;
    while let [b' ' | b'\t', more @ ..] = rest {
        rest = more;
    }
    rest
}

/// The number that the whole of `text` spells in decimal digits. A number that no `u32` holds gives the greatest one.
pub fn read_number(text: &[u8]) -> Option<u32> {
    leading_number(text).filter(|(_, rest)| rest.is_empty()).map(|(number, _)| number)
}

/// The prefix that the whole of `text` spells.
pub fn read_prefix(text: &[u8]) -> Option<Prefix> {
    leading_prefix(text).filter(|(_, rest)| rest.is_empty()).map(|(prefix, _)| prefix)
}

/// The route that a line `NET METRIC SIZE` spells, read in one pass. None where anything is wrong with the line: both
/// numbers are bounded by `Route::new`.
pub fn read_route(line: &[u8]) -> Option<Route> {
    let (net, rest) = leading_prefix(after_blanks(line))?;
    let (metric, rest) = leading_number(after_blanks(rest))?;
    let (size, rest) = leading_number(after_blanks(rest))?;
    if !after_blanks(rest).is_empty() {
        return None;
    }
    Route::new(net, metric, size)
}
