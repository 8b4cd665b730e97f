//! Sets of ints.

/// The greatest number of ranges in a set that is scanned.
const SCAN_LIMIT: usize = 8;

/// The ints from a first one to a last one, both included.
#[derive(Clone, Copy, Debug, PartialEq, Eq)]
pub struct IntRange {
    pub low: u32,
    pub high: u32,
}

impl IntRange {
    /// None unless `low <= high`.
    pub fn new(low: u32, high: u32) -> Option<IntRange> {
        (low <= high).then_some(IntRange { low, high })
    }

    fn holds(&self, number: u32) -> bool {
        (self.low..=self.high).contains(&number)
    }

    fn meets(&self, other: &IntRange) -> bool {
        self.low <= other.high && other.low <= self.high
    }
}

/// The first label that shares a number with an earlier one. Each range comes with the place of its label, in text order.
pub fn first_shared_label(ranges: &[(IntRange, usize)]) -> Option<usize> {
    if are_apart(ranges) {
        return None;
    }
    let shares_earlier = |(at, (range, label)): &(usize, &(IntRange, usize))| {
        ranges[..*at].iter().any(|(other, earlier)| earlier != label && range.meets(other))
    };
    ranges.iter().enumerate().find(shares_earlier).map(|(_, (_, label))| *label)
}

/// Whether no two labels share a number.
fn are_apart(ranges: &[(IntRange, usize)]) -> bool {
    let mut sorted = ranges.to_vec();
    sorted.sort_unstable_by_key(|(range, _)| range.low);
    let mut longest: Option<(IntRange, usize)> = None;
    for (range, label) in sorted {
        match longest {
            Some((other, earlier)) if range.low <= other.high && earlier != label => return false,
            Some((other, _)) if range.high <= other.high => {}
            _ => longest = Some((range, label)),
        }
    }
    true
}

/// The ranges of a set: as they came if they are few, otherwise in order, merged where they overlap.
#[derive(Clone, Debug, Default)]
pub struct IntSet {
    ranges: Vec<IntRange>,
    is_merged: bool,
}

impl FromIterator<IntRange> for IntSet {
    fn from_iter<I: IntoIterator<Item = IntRange>>(ranges: I) -> IntSet {
        let ranges: Vec<IntRange> = ranges.into_iter().collect();
        if ranges.len() <= SCAN_LIMIT {
            return IntSet { ranges, is_merged: false };
        }
        IntSet { ranges: merged(ranges), is_merged: true }
    }
}

fn merged(mut ranges: Vec<IntRange>) -> Vec<IntRange> {
    ranges.sort_unstable_by_key(|range| range.low);
    let mut merged: Vec<IntRange> = Vec::with_capacity(ranges.len());
    for range in ranges {
        match merged.last_mut() {
            Some(last) if range.low <= last.high => last.high = last.high.max(range.high),
            _ => merged.push(range),
        }
    }
    merged
}

impl IntSet {
    pub fn holds(&self, number: u32) -> bool {
        if self.is_merged {
            let count = self.ranges.partition_point(|range| range.low <= number);
            return count > 0 && number <= self.ranges[count - 1].high;
        }
        self.ranges.iter().any(|range| range.holds(number))
    }
}
