//! What the tests inside this crate ask about: trees of texts, and lists that are no trees.

use crate::{parse, Tree};

pub fn tree(text: &str) -> Tree {
    parse(text.as_bytes()).expect(text)
}

/// Refused by 3.
pub fn no_sheet() -> Tree {
    Tree {
        words: vec![],
        names: vec![],
    }
}

/// Refused by 4.
pub fn bad_name() -> Tree {
    Tree {
        words: vec![1, 4, 1, 8, 29, 0, 1, 1],
        names: b"-".to_vec(),
    }
}
