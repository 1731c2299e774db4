//! Sizes by rows, from requests N5 and N6 and document 01's paragraph on sizes, in numbers of 128 bits. What has no
//! place in these stays at the largest that has: that is above every limit, and 0 times it is 0.

use crate::plain::{children, inside, Level};
use crate::sheet::*;
use crate::trees::Tree;

pub const ROWS: usize = 4;

/// Refusals 6 and 20.
pub const TOO_LARGE: u64 = 6;
pub const NO_SUCH_ROW: u64 = 20;

/// What the rows differ in.
#[derive(Clone, Copy)]
struct Widths {
    long: u128,
    unsigned_long: u128,
    pointer: u128,
    long_double: u128,
}

/// 64-bit Apple ARM, x86_64, ARM, and 64-bit Apple ARM with the guide's long.
const WIDTHS: [Widths; ROWS] = [
    Widths { long: 8, unsigned_long: 8, pointer: 8, long_double: 8 },
    Widths { long: 8, unsigned_long: 8, pointer: 8, long_double: 16 },
    Widths { long: 4, unsigned_long: 4, pointer: 4, long_double: 8 },
    Widths { long: 4, unsigned_long: 8, pointer: 8, long_double: 8 },
];

/// The largest size of each row.
pub const LARGEST: [u128; ROWS] = [u64::MAX as u128, u64::MAX as u128, u32::MAX as u128, u64::MAX as u128];

/// A tree's size, and the largest size, sum or product on the way to it.
#[derive(Clone, Copy, Debug)]
pub struct Measured {
    pub bytes: Option<u128>,
    pub largest: u128,
}

impl Measured {
    /// Whether the crate's own sums are right.
    pub fn fits(&self) -> bool {
        self.largest <= u128::from(u64::MAX)
    }
}

pub fn measure(tree: &Tree, row: usize) -> Measured {
    let mut walk = Walk { tree, widths: WIDTHS[row], largest: 0 };
    let bytes = walk.size(0, Level::Top);
    Measured { bytes, largest: walk.largest }
}

/// What size answers for a valid sheet without bad names.
#[derive(Clone, Copy, Debug, PartialEq)]
pub enum Answer {
    None,
    Bytes(u64),
    Refused(u64),
}

/// The answer for a size that was worked out for a row.
pub fn handed_out(bytes: Option<u128>, row: usize) -> Answer {
    match bytes {
        None => Answer::None,
        Some(bytes) if bytes <= LARGEST[row] => Answer::Bytes(bytes as u64),
        Some(_) => Answer::Refused(TOO_LARGE),
    }
}

struct Walk<'a> {
    tree: &'a Tree,
    widths: Widths,
    largest: u128,
}

impl Walk<'_> {
    fn size(&mut self, at: usize, level: Level) -> Option<u128> {
        let node = self.tree.nodes[at];
        let below = inside(node.kind, level);
        let bytes = match node.kind {
            STRUCT | UNION if level == Level::Bottom => None,
            STRUCT => self.sum(at, below),
            UNION => self.largest_member(at, below),
            POINTER => Some(self.widths.pointer),
            ATOMIC => self.size(at + 1, below),
            ARRAY => self.size(at + 1, below).map(|item| item.saturating_mul(node.first.into())),
            BITFIELD => Some(bitfield(node.second)),
            TYPED_BITFIELD => Some(bitfield(node.second).max(self.size(at + 1, below).unwrap_or(0))),
            kind => self.widths.primitive(kind),
        };
        self.largest = self.largest.max(bytes.unwrap_or(0));
        bytes
    }

    /// All fields are gone through, so that one without a size goes before a sum of the others.
    fn sum(&mut self, at: usize, level: Level) -> Option<u128> {
        let mut sum: u128 = 0;
        let mut all_sized = true;
        for child in children(self.tree, at) {
            match self.size(child, level) {
                Some(bytes) => sum = sum.saturating_add(bytes),
                None => all_sized = false,
            }
        }
        self.largest = self.largest.max(sum);
        all_sized.then_some(sum)
    }

    /// A size is more than none.
    fn largest_member(&mut self, at: usize, level: Level) -> Option<u128> {
        children(self.tree, at).map(|child| self.size(child, level)).max().flatten()
    }
}

impl Widths {
    fn primitive(&self, kind: u64) -> Option<u128> {
        match kind {
            0 | 5 | 16 => Some(1),
            1 | 6 => Some(2),
            2 | 7 | 10 => Some(4),
            LONG => Some(self.long),
            UNSIGNED_LONG => Some(self.unsigned_long),
            4 | 9 | 11 => Some(8),
            12 => Some(self.long_double),
            13 => Some(2 * 4),
            14 => Some(2 * 8),
            15 => Some(2 * self.long_double),
            18..=22 => Some(self.pointer),
            _ => None,
        }
    }
}

/// The size of a code in a row, if it has one.
pub fn primitive(kind: u64, row: usize) -> Option<u128> {
    WIDTHS[row].primitive(kind)
}

pub fn pointer(row: usize) -> u128 {
    WIDTHS[row].pointer
}

fn bitfield(bits: u64) -> u128 {
    u128::from(bits.next_power_of_two().max(8) / 8)
}
