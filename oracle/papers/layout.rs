//! Where each field lies: an evaluator written from request N7. What is above every limit stays at one number
//! that is a multiple of every alignment, so that sums, products and roundings of it are right; 0 times it is 0.

use crate::plain::{children, levels, Level};
use crate::rows::{self, LARGEST, NO_SUCH_ROW, ROWS, TOO_LARGE};
use crate::sheet::*;
use crate::trees::Tree;

/// Refusals 2 and 21.
pub const LIST_TOO_SHORT: u64 = 2;
pub const BIT_FIELD_IN_LAYOUT: u64 = 21;

const ABOVE_ALL: u128 = 1 << 100;

/// What layout answers for a valid sheet without bad names.
#[derive(Clone, Debug, PartialEq)]
pub enum Answer {
    Layout(Layout),
    None,
    /// By number; the node of refusal 21, else 0.
    Refused(u64, u64),
}

#[derive(Clone, Debug, PartialEq)]
pub struct Layout {
    pub bytes: u64,
    pub alignment: u64,
    pub offsets: Vec<u64>,
}

/// The answer for a list of `room` numbers, with the refusals in the request's order.
pub fn answer(tree: &Tree, row: u64, room: usize) -> Answer {
    if row >= ROWS as u64 {
        Answer::Refused(NO_SUCH_ROW, 0)
    } else if room < tree.nodes.len() {
        Answer::Refused(LIST_TOO_SHORT, 0)
    } else {
        handed_out(&work_out(tree, row as usize), row as usize)
    }
}

/// All that the answers of a row are made of.
pub enum WorkedOut {
    /// The lowest number of a bitfield that is laid out.
    BitField(usize),
    NoSize,
    Places(Places),
}

/// Numbers of any length, as far as they are below `ABOVE_ALL`.
pub struct Places {
    pub bytes: u128,
    pub alignment: u128,
    pub offsets: Vec<u128>,
}

pub fn work_out(tree: &Tree, row: usize) -> WorkedOut {
    let laid_out = laid_out(tree);
    let levels = levels(tree);
    let laid = |at: &usize| laid_out[*at];
    let bitfield = |at: &usize| matches!(tree.nodes[*at].kind, BITFIELD | TYPED_BITFIELD);
    let numbers = 0..tree.nodes.len();
    if let Some(at) = numbers.clone().filter(laid).find(bitfield) {
        return WorkedOut::BitField(at);
    }
    if numbers.clone().filter(laid).any(|at| has_no_size(tree, at, levels[at], row)) {
        return WorkedOut::NoSize;
    }
    let (extents, offsets) = (vec![Extent::default(); numbers.len()], vec![0; numbers.len()]);
    let mut walk = Walk { tree, row, extents, offsets };
    // From the last on, so that a node's children come before it.
    numbers.rev().filter(laid).for_each(|at| walk.lay_out(at));
    let Extent { bytes, alignment } = walk.extents[0];
    WorkedOut::Places(Places { bytes, alignment, offsets: walk.offsets })
}

pub fn handed_out(worked_out: &WorkedOut, row: usize) -> Answer {
    match worked_out {
        WorkedOut::BitField(at) => Answer::Refused(BIT_FIELD_IN_LAYOUT, *at as u64),
        WorkedOut::NoSize => Answer::None,
        WorkedOut::Places(places) if places.are_too_large(row) => Answer::Refused(TOO_LARGE, 0),
        WorkedOut::Places(places) => Answer::Layout(Layout {
            bytes: places.bytes as u64,
            alignment: places.alignment as u64,
            offsets: places.offsets.iter().map(|&offset| offset as u64).collect(),
        }),
    }
}

impl Places {
    pub fn are_too_large(&self, row: usize) -> bool {
        self.bytes > LARGEST[row] || self.largest_offset() > LARGEST[row]
    }

    pub fn largest_offset(&self) -> u128 {
        self.offsets.iter().copied().max().unwrap_or(0)
    }
}

/// Which nodes are shown and not behind a pointer.
pub fn laid_out(tree: &Tree) -> Vec<bool> {
    let mut laid_out: Vec<bool> = levels(tree).iter().map(Option::is_some).collect();
    for (at, node) in tree.nodes.iter().enumerate().filter(|(_, node)| node.kind == POINTER) {
        laid_out[at + 1..at + node.count as usize].fill(false);
    }
    laid_out
}

/// An array or atomic has none if what it holds has none; that is laid out itself.
fn has_no_size(tree: &Tree, at: usize, level: Option<Level>, row: usize) -> bool {
    let node = tree.nodes[at];
    match node.kind {
        POINTER | ATOMIC | ARRAY => false,
        STRUCT => level == Some(Level::Bottom),
        UNION => level == Some(Level::Bottom) || node.count == 1,
        kind => rows::primitive(kind, row).is_none(),
    }
}

#[derive(Clone, Copy, Default)]
struct Extent {
    bytes: u128,
    alignment: u128,
}

struct Walk<'a> {
    tree: &'a Tree,
    row: usize,
    extents: Vec<Extent>,
    offsets: Vec<u128>,
}

impl Walk<'_> {
    fn lay_out(&mut self, at: usize) {
        let node = self.tree.nodes[at];
        self.extents[at] = match node.kind {
            STRUCT => self.struct_extent(at),
            UNION => self.union_extent(at),
            POINTER => Extent { bytes: rows::pointer(self.row), alignment: rows::pointer(self.row) },
            ATOMIC => self.extents[at + 1],
            ARRAY => {
                let item = self.extents[at + 1];
                let bytes = item.bytes.saturating_mul(node.first.into()).min(ABOVE_ALL);
                Extent { bytes, ..item }
            }
            kind => Extent { bytes: self.size_of(kind), alignment: self.size_of(part_of(kind)) },
        };
    }

    fn size_of(&self, kind: u64) -> u128 {
        rows::primitive(kind, self.row).expect("a code that has a size")
    }

    fn struct_extent(&mut self, at: usize) -> Extent {
        let (mut end, mut alignment) = (0, 1);
        for field in children(self.tree, at) {
            let extent = self.extents[field];
            self.offsets[field] = rounded_up(end, extent.alignment);
            end = (self.offsets[field] + extent.bytes).min(ABOVE_ALL);
            alignment = alignment.max(extent.alignment);
        }
        Extent { bytes: rounded_up(end, alignment), alignment }
    }

    /// Its members have the offset 0.
    fn union_extent(&self, at: usize) -> Extent {
        let members = || children(self.tree, at).map(|member| self.extents[member]);
        let alignment = members().map(|member| member.alignment).max().expect("a member");
        let end = members().map(|member| member.bytes).max().expect("a member");
        Extent { bytes: rounded_up(end, alignment), alignment }
    }
}

/// The part of a complex number; of another code itself.
fn part_of(kind: u64) -> u64 {
    match kind {
        13..=15 => kind - 3,
        _ => kind,
    }
}

/// The least multiple of the alignment that is not below the end.
fn rounded_up(end: u128, alignment: u128) -> u128 {
    match end % alignment {
        0 => end,
        over => end + (alignment - over),
    }
}
