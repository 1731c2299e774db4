//! The widths that types are measured and laid out with.

/// The widths that a size is made of: a row of the library's table of sizes.
#[derive(Clone, Copy, Debug, PartialEq, Eq, Hash)]
pub enum Row {
    /// 0: 64-bit Apple ARM, as objc2-encode measures there. Long, unsigned long, pointers and long
    /// double have 8 bytes.
    AppleArm64,
    /// 1: x86_64, as Intel Macs. Long, unsigned long and pointers have 8 bytes, long double 16.
    X86_64,
    /// 2: 32-bit ARM. Long, unsigned long and pointers have 4 bytes, long double 8; no size is above
    /// 2^32 - 1.
    Arm32,
    /// 3: row 0, but long has the 32 bits that Apple's guide states for `l` in 64-bit programs;
    /// unsigned long, of which it states nothing, keeps 8 bytes. For a caller that follows the guide:
    /// in memory a long has the width that the row of its machine gives.
    Guide,
}

impl Row {
    /// All of them, in the order of their numbers.
    pub const ALL: [Row; 4] = [Row::AppleArm64, Row::X86_64, Row::Arm32, Row::Guide];

    /// The number that the library has for it.
    pub fn number(self) -> u64 {
        match self {
            Row::AppleArm64 => 0,
            Row::X86_64 => 1,
            Row::Arm32 => 2,
            Row::Guide => 3,
        }
    }
}

/// What the wrapper never asks: rows that there are not, and lists that are no trees.
#[cfg(test)]
mod tests {
    use super::Row;
    use crate::exported::berzhotun_size;
    use crate::trees::{bad_name, no_sheet, tree};
    use crate::{Refusal, Tree};

    const NO_ROWS: [u64; 4] = [4, 5, 1 << 32, u64::MAX];

    /// The returned number, and the answer.
    fn ask(tree: &Tree, row: u64) -> (u64, [u64; 2]) {
        let mut answer = [7; 2];
        // SAFETY: each pointer goes with its own list's length, and only the answer is written.
        let number = unsafe {
            berzhotun_size(
                tree.words.as_ptr(),
                tree.words.len(),
                tree.names.as_ptr(),
                tree.names.len(),
                row,
                &mut answer,
            )
        };
        (number, answer)
    }

    #[test]
    fn rows_go_by_their_numbers() {
        let record = tree("{R=l^vD}");
        let answers = [(0, [1, 24]), (0, [1, 32]), (0, [1, 16]), (0, [1, 20])];
        for (row, answer) in Row::ALL.into_iter().zip(answers) {
            assert_eq!(ask(&record, row.number()), answer);
        }
        assert_eq!(Row::ALL.map(Row::number), [0, 1, 2, 3]);
    }

    #[test]
    fn a_row_that_there_is_not_goes_before_no_size_and_one_too_large() {
        for row in NO_ROWS {
            for text in ["c", "v", "", "{R=i^v}", "(x=)", "[2[9223372036854775808c]]"] {
                assert_eq!(ask(&tree(text), row), (20, [0, 0]), "{text} {row}");
            }
        }
        let refusal = Refusal::new(20, [0; 3]);
        assert_eq!((refusal, refusal.number()), (Refusal::NoSuchRow, 20));
        assert_eq!(refusal.to_string(), "there is no such row of sizes");
    }

    #[test]
    fn what_is_no_sheet_goes_before_a_bad_name_and_that_before_no_row() {
        for row in Row::ALL.map(Row::number).into_iter().chain(NO_ROWS) {
            assert_eq!(ask(&no_sheet(), row), (3, [0, 0]));
            assert_eq!(ask(&bad_name(), row), (4, [0, 0]));
        }
    }
}
