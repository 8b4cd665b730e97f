//! Prefix patterns and the sets of them.

use crate::route::{mask_of, Prefix};

/// The greatest number of patterns in a set that is scanned, and in a part of a tree that is.
const SCAN_LIMIT: usize = 12;
const FEW: usize = 4;

/// The bits of a pattern, the mask of its length, and the lengths that it allows, each of them a bit.
#[derive(Clone, Copy, Debug, PartialEq, Eq)]
pub struct Pattern {
    address: u32,
    mask: u32,
    lengths: u64,
}

impl Pattern {
    /// None unless `low <= high <= 32`.
    pub fn new(prefix: Prefix, low: u8, high: u8) -> Option<Pattern> {
        let lengths = || (1 << (high + 1)) - (1 << low);
        (low <= high && high <= 32).then(|| Pattern {
            address: prefix.address,
            mask: mask_of(prefix.length),
            lengths: lengths(),
        })
    }

    fn length(&self) -> u8 {
        self.mask.count_ones() as u8
    }

    /// Whether the first bits that both have are the same, and the length of `net` is allowed.
    fn matches(&self, net: Prefix, net_mask: u32) -> bool {
        (self.address ^ net.address) & self.mask & net_mask == 0 && has(self.lengths, net.length)
    }
}

fn has(lengths: u64, length: u8) -> bool {
    lengths >> length & 1 == 1
}

fn any_matches(patterns: &[Pattern], net: Prefix) -> bool {
    let mask = mask_of(net.length);
    patterns.iter().any(|pattern| pattern.matches(net, mask))
}

/// Patterns in the order of the file, and an index of them if they are many.
#[derive(Clone, Debug, Default)]
pub struct PatternSet {
    patterns: Vec<Pattern>,
    index: Option<Index>,
}

impl FromIterator<Pattern> for PatternSet {
    fn from_iter<I: IntoIterator<Item = Pattern>>(patterns: I) -> PatternSet {
        let patterns: Vec<Pattern> = patterns.into_iter().collect();
        let index = (patterns.len() > SCAN_LIMIT).then(|| Index::new(&patterns));
        PatternSet { patterns, index }
    }
}

impl PatternSet {
    /// Whether any pattern matches `net`.
    pub fn matches(&self, net: Prefix) -> bool {
        match &self.index {
            Some(index) => index.matches(net),
            None => any_matches(&self.patterns, net),
        }
    }
}

/// A few patterns as a range of the leaves, or more by the index of their node.
#[derive(Clone, Copy, Debug)]
enum Tree {
    Few(u32, u32),
    Inner(u32),
}

/// The lengths that the patterns which end here allow, and those that any pattern of the tree allows.
#[derive(Clone, Debug)]
struct Node {
    own: u64,
    below: u64,
    zero: Tree,
    one: Tree,
}

/// Patterns in 256 buckets by their first 8 bits, with a tree for each; those of fewer bits have a tree of their own.
#[derive(Clone, Debug)]
struct Index {
    nodes: Vec<Node>,
    leaves: Vec<Pattern>,
    short: Tree,
    buckets: Vec<Tree>,
    /// By a 1 and up to 8 bits: the lengths that the patterns of the buckets allow which agree with these bits.
    lengths: Vec<u64>,
}

impl Index {
    fn new(patterns: &[Pattern]) -> Index {
        let mut index = Index {
            nodes: Vec::new(),
            leaves: Vec::with_capacity(patterns.len()),
            short: Tree::Few(0, 0),
            buckets: Vec::with_capacity(256),
            lengths: vec![0; 512],
        };
        let bucket = |pattern: &Pattern| match pattern.length() {
            0..=7 => 256,
            _ => (pattern.address >> 24) as usize,
        };
        let mut heads = [0; 257];
        let mut next = Vec::with_capacity(patterns.len());
        for (at, pattern) in patterns.iter().enumerate() {
            let head = &mut heads[bucket(pattern)];
            next.push(*head);
            *head = at + 1;
        }
        let mut part = Vec::new();
        let fill = |part: &mut Vec<Pattern>, bucket: usize| {
            part.clear();
            let mut at = heads[bucket];
            while at > 0 {
                part.push(patterns[at - 1]);
                at = next[at - 1];
            }
        };
        for bucket in 0..256 {
            fill(&mut part, bucket);
            index.lengths[256 + bucket] = part.iter().fold(0, |all, pattern| all | pattern.lengths);
            let tree = index.grow(&mut part, 0, 8);
            index.buckets.push(tree);
        }
        for at in (1..256).rev() {
            index.lengths[at] = index.lengths[2 * at] | index.lengths[2 * at + 1];
        }
        fill(&mut part, 256);
        index.short = index.grow(&mut part, 0, 0);
        index
    }

    /// The tree of the patterns of `part` from `from` on, which share the bits before `depth`.
    fn grow(&mut self, part: &mut Vec<Pattern>, from: usize, depth: u8) -> Tree {
        let end = part.len();
        if end - from <= FEW {
            let first = self.leaves.len();
            self.leaves.extend_from_slice(&part[from..]);
            return Tree::Few(first as u32, self.leaves.len() as u32);
        }
        let (mut own, mut below) = (0, 0);
        for pattern in &part[from..] {
            below |= pattern.lengths;
            if pattern.length() <= depth {
                own |= pattern.lengths;
            }
        }
        let mut side = |index: &mut Index, bit: bool| {
            for at in from..end {
                let pattern = part[at];
                if pattern.length() > depth && (pattern.address >> (31 - depth) & 1 == 1) == bit {
                    part.push(pattern);
                }
            }
            let tree = index.grow(part, end, depth + 1);
            part.truncate(end);
            tree
        };
        let zero = side(self, false);
        let one = side(self, true);
        self.nodes.push(Node { own, below, zero, one });
        Tree::Inner(self.nodes.len() as u32 - 1)
    }

    fn matches(&self, net: Prefix) -> bool {
        self.walk(self.short, 0, net)
            || match net.length {
                0..=8 => {
                    let at = (1 << net.length) + (u64::from(net.address) >> (32 - net.length)) as usize;
                    has(self.lengths[at], net.length)
                }
                _ => self.walk(self.buckets[(net.address >> 24) as usize], 8, net),
            }
    }

    fn walk(&self, mut tree: Tree, mut depth: u8, net: Prefix) -> bool {
        loop {
            let node = match tree {
                Tree::Few(from, to) => return any_matches(&self.leaves[from as usize..to as usize], net),
                Tree::Inner(at) => &self.nodes[at as usize],
            };
            if has(node.own, net.length) {
                return true;
            }
            if depth >= net.length {
                return has(node.below, net.length);
            }
            tree = if net.address >> (31 - depth) & 1 == 1 { node.one } else { node.zero };
            depth += 1;
        }
    }
}
