//! Where each field of a type lies.

use crate::exported::berzhotun_layout;
use crate::{Refusal, Row, Tree};

/// A type in memory, with padding: its size and alignment, and the offsets of its fields.
#[derive(Clone, Debug, PartialEq, Eq, Hash)]
pub struct Layout {
    /// The bytes of the whole, a multiple of its alignment. An array of such has the item's bytes times
    /// its length.
    pub bytes: u64,
    /// The alignment of the whole: a power of two.
    pub alignment: u64,
    /// One for each node, in the order of the sheet.
    offsets: Vec<u64>,
    /// The nodes that are the root's fields.
    fields: Vec<usize>,
}

impl Layout {
    /// The offset of a node, by its number in the sheet, from 0 for the root. A field of a struct or
    /// union that is not behind a pointer has its offset from the start of that struct or union, every
    /// other node 0. There is none for a number that no node has.
    pub fn offset(&self, node: usize) -> Option<u64> {
        self.offsets.get(node).copied()
    }

    /// The offset of a field of the whole, by its number among the fields of the root, from 0. There is
    /// none where the root is no struct or union, or has no such field.
    pub fn field(&self, number: usize) -> Option<u64> {
        self.offset(*self.fields.get(number)?)
    }

    /// The nodes that are fields of the whole, in their order.
    pub fn fields(&self) -> &[usize] {
        &self.fields
    }

    /// The offsets of all nodes.
    pub fn offsets(&self) -> &[u64] {
        &self.offsets
    }
}

impl Tree {
    /// Where each field lies with the row's widths, if the type has a layout. A bitfield that is laid out
    /// is refused, by [`Refusal::BitFieldInLayout`], and so is a size or an offset that is too large.
    ///
    /// For arm64 and x86_64 Macs, and in [`Row::Arm32`] for watchOS on armv7k, this is what clang does, but
    /// that it aligns atomic complex numbers, if they are small enough, to their whole size.
    ///
    /// There is none where something has no size: void, an unknown type, none at all, an empty union, or an
    /// atomic struct or union, whose fields a text does not have.
    pub fn layout(&self, row: Row) -> Result<Option<Layout>, Refusal> {
        let mut offsets = vec![0; self.words[0] as usize];
        let mut answer = [0; 3];
        // SAFETY: each pointer goes with its own list's length; the lists that are written are new.
        let number = unsafe {
            berzhotun_layout(
                self.words.as_ptr(),
                self.words.len(),
                self.names.as_ptr(),
                self.names.len(),
                row.number(),
                offsets.as_mut_ptr(),
                offsets.len(),
                &mut answer,
            )
        };
        match (number, answer) {
            (0, [1, bytes, alignment]) => Ok(Some(Layout {
                bytes,
                alignment,
                offsets,
                fields: self.root_fields(),
            })),
            (0, _) => Ok(None),
            _ => Err(Refusal::new(number, answer)),
        }
    }

    /// The nodes that are fields of the root, if it is a struct or union.
    fn root_fields(&self) -> Vec<usize> {
        let nodes = &self.words[self.words[1] as usize..self.words[3] as usize];
        let is_container = nodes[0] == 29 || nodes[0] == 30;
        let mut fields = Vec::new();
        let mut node = 1;
        while is_container && 4 * node < nodes.len() {
            fields.push(node);
            node += nodes[4 * node + 3] as usize;
        }
        fields
    }
}

/// What the wrapper never asks: rows that there are not, lists that are too short, and lists that are no trees.
#[cfg(test)]
mod tests {
    use super::*;
    use crate::trees::{bad_name, no_sheet, tree};

    const NO_ROWS: [u64; 3] = [4, 1 << 32, u64::MAX];

    /// The returned number, the answer, and a list of so many numbers after the call.
    fn ask(tree: &Tree, row: u64, room: usize) -> (u64, [u64; 3], Vec<u64>) {
        let mut answer = [7; 3];
        let mut offsets = vec![7; room + 1];
        // SAFETY: each pointer goes with a length that its list has.
        let number = unsafe {
            berzhotun_layout(
                tree.words.as_ptr(),
                tree.words.len(),
                tree.names.as_ptr(),
                tree.names.len(),
                row,
                offsets.as_mut_ptr(),
                room,
                &mut answer,
            )
        };
        (number, answer, offsets)
    }

    #[test]
    fn just_the_numbers_of_the_nodes_are_written() {
        let record = tree("{R=ci^v}");
        let answer = [1, 16, 8];
        assert_eq!(ask(&record, 0, 5), (0, answer, vec![0, 0, 4, 8, 0, 7]));
        assert_eq!(
            ask(&record, 0, 7),
            (0, answer, vec![0, 0, 4, 8, 0, 7, 7, 7])
        );
    }

    #[test]
    fn none_and_refusals_write_nothing() {
        for (text, number, node) in [
            ("(U=vi)", 0, 0),
            ("{R=cb3v}", 21, 2),
            ("[18446744073709551615s]", 6, 0),
        ] {
            let tree = tree(text);
            let (returned, answer, offsets) = ask(&tree, 0, 9);
            assert_eq!((returned, answer), (number, [node, 0, 0]), "{text}");
            assert_eq!(offsets, [7; 10], "{text}");
        }
    }

    #[test]
    fn a_short_list_goes_before_bitfields_and_a_row_that_there_is_not_before_it() {
        for text in [
            "{R=cb3}",
            "{R=vc}",
            "{R=[18446744073709551615s]c}",
            "{R=cc}",
        ] {
            let tree = tree(text);
            for room in 0..3 {
                assert_eq!(
                    ask(&tree, 0, room),
                    (2, [0; 3], vec![7; room + 1]),
                    "{text}"
                );
                for row in NO_ROWS {
                    assert_eq!(
                        ask(&tree, row, room),
                        (20, [0; 3], vec![7; room + 1]),
                        "{text}"
                    );
                }
            }
        }
    }

    #[test]
    fn what_is_no_sheet_goes_before_a_bad_name_and_that_before_all_else() {
        for row in Row::ALL.map(Row::number).into_iter().chain(NO_ROWS) {
            assert_eq!(ask(&no_sheet(), row, 0), (3, [0; 3], vec![7]));
            assert_eq!(ask(&bad_name(), row, 0), (4, [0; 3], vec![7]));
        }
    }
}
