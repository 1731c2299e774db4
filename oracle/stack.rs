//! The deepest trees, texts and signatures, put to the library alone on a stack of a given size. If that is too
//! small the process dies of it; there is nothing to compare.

use std::thread::Builder;

use crate::layout::BIT_FIELD_IN_LAYOUT;
use crate::library::{self, Reader, Reply, Sheet};
use crate::rows::ROWS;
use crate::sheet::*;
use crate::trees::{Node, Tree};

pub fn run(kibibytes: usize) -> bool {
    let trees = deepest();
    let pairs = deep_pairs();
    let all_fit = move || {
        trees.iter().all(tree_fits) && pairs.iter().all(pair_fits) && texts_fit() && signatures_fit()
    };
    let thread = Builder::new().stack_size(kibibytes << 10).spawn(all_fit).expect("a thread");
    let fits = thread.join().unwrap_or(false);
    println!(
        "stack: {kibibytes} KiB {} for 2,001 nested nodes",
        if fits { "are enough" } else { "did not do" }
    );
    fits
}

/// Chains of 2,001 nodes, of each kind that holds something and of all in turn; records that are not the last field
/// of theirs, so that a walk must come back to each; and records around an array that only the longer way lays out.
fn deepest() -> Vec<Tree> {
    let kinds: [&[u64]; 8] = [
        &[POINTER],
        &[ATOMIC],
        &[ARRAY],
        &[TYPED_BITFIELD],
        &[STRUCT],
        &[UNION],
        &[STRUCT, POINTER, UNION, ARRAY],
        &[ARRAY, TYPED_BITFIELD],
    ];
    kinds.iter().map(|kinds| chain(kinds)).chain([records(), large_records()]).collect()
}

fn chain(kinds: &[u64]) -> Tree {
    let mut tree = Tree::default();
    for depth in 0..MOST_NODES - 1 {
        let kind = kinds[depth as usize % kinds.len()];
        let (first, second) = if is_container(kind) {
            tree.names.push(b'R');
            (tree.names.len() as u64 - 1, 1)
        } else {
            (0, 0)
        };
        tree.nodes.push(Node { kind, first, second, count: MOST_NODES - depth });
    }
    tree.nodes.push(Node { kind: INT, first: 0, second: 0, count: 1 });
    tree
}

/// Each of them against one with another last node; the records also with another innermost field.
fn deep_pairs() -> Vec<(Tree, Tree)> {
    let mut pairs: Vec<_> = deepest().into_iter().map(|tree| (tree.clone(), with_other(&tree, 2000))).collect();
    pairs.push((records(), with_other(&records(), 1000)));
    pairs
}

/// 1,000 records, one in the other, with a field behind each.
fn records() -> Tree {
    let mut tree = Tree::default();
    for depth in 0..1000 {
        tree.names.push(b'R');
        tree.nodes.push(Node { kind: STRUCT, first: depth, second: 1, count: MOST_NODES - 2 * depth });
    }
    tree.nodes.resize(MOST_NODES as usize, Node { kind: INT, first: 0, second: 0, count: 1 });
    tree
}

/// Records, one in the other, and in the last an array of 2^31 chars.
fn large_records() -> Tree {
    let mut tree = chain(&[STRUCT]);
    tree.names.pop();
    tree.nodes[MOST_NODES as usize - 2] = Node { kind: ARRAY, first: 1 << 31, second: 0, count: 2 };
    tree.nodes[MOST_NODES as usize - 1].kind = CHAR;
    tree
}

fn with_other(tree: &Tree, at: usize) -> Tree {
    let mut other = tree.clone();
    other.nodes[at].kind = DOUBLE;
    other
}

/// A no with its reason by all fields, and by levels whatever these say.
fn pair_fits((a, b): &(Tree, Tree)) -> bool {
    let (a_words, b_words) = (a.words(), b.words());
    let a = Sheet { words: &a_words, names: &a.names };
    let b = Sheet { words: &b_words, names: &b.names };
    let mut out = vec![0; 8016];
    let all = library::reason_all(a, b, &mut out, 8016);
    let is_no = all.0 == 0 && all.1[0] == 0 && all.1 == library::reason_all_len(a, b).1;
    let by_levels = library::reason(a, b, &mut out, 8016);
    let yes = library::reason_all(a, a, &mut out, 8016);
    is_no && by_levels.0 == 0 && by_levels == library::reason_len(a, b) && yes.0 == 0 && yes.1[0] == 1
}

fn tree_fits(tree: &Tree) -> bool {
    let words = tree.words();
    let sheet = Sheet { words: &words, names: &tree.names };
    let mut out = vec![0; 1 << 16];
    let length = library::static_encoding_str_len(sheet);
    let print = library::static_encoding_str_array(sheet, &mut out, 1 << 16);
    let sized = (0..ROWS as u64).all(|row| accepted(library::size(sheet, row)));
    let pairs = [library::equivalent_to, library::equivalent_to_box, library::eq];
    let compared = pairs.iter().all(|pair| accepted(pair(sheet, sheet)));
    let matched = text_limit_holds(sheet, &out[..print.1[0] as usize]);
    let mut offsets = vec![0; tree.nodes.len()];
    let laid_out = (0..ROWS as u64).all(|row| {
        let reply = library::layout(sheet, row, &mut offsets, tree.nodes.len());
        accepted(reply) || reply.0 == BIT_FIELD_IN_LAYOUT
    });
    accepted(length) && accepted(print) && sized && compared && matched && laid_out
}

fn accepted(reply: Reply) -> bool {
    reply.0 == 0
}

/// The tree against its own print, which may be too long for that.
fn text_limit_holds(sheet: Sheet, print: &[u8]) -> bool {
    let refusal = library::equivalent_to_str(sheet, print).0;
    refusal == u64::from(print.len() > 2000)
        && accepted(library::equivalent_to_str(sheet, &print[..print.len().min(2000)]))
}

/// Nested as deep as 2,000 bytes allow, closed and not.
fn texts_fit() -> bool {
    let texts = [
        "^".repeat(2000),
        "A".repeat(2000),
        "[1".repeat(1000),
        "{R".repeat(1000),
        "{R=".repeat(666),
        "(R=".repeat(666),
        format!("{}{}", "[1".repeat(666), "]".repeat(666)),
        format!("{}{}", "{R=".repeat(500), "}".repeat(500)),
        // Strict reading refuses the deepest number.
        format!("{}[00", "[1".repeat(998)),
    ];
    let (mut words, mut names) = (vec![0; 8 + 4 * 2000], vec![0; 2000]);
    let readers = [library::from_str, library::from_str_strict, library::from_start_of_str];
    let mut fits = |text: &str, reader: Reader| {
        let refusal = reader(text.as_bytes(), &mut words, &mut names).0;
        refusal == 0 || refusal >= 7
    };
    texts.iter().all(|text| readers.iter().all(|&reader| fits(text, reader)))
}

/// A type nested as deep as a signature of 2,000 bytes allows, closed and not.
fn signatures_fit() -> bool {
    let texts = [
        format!("{}i0", "^".repeat(1998)),
        format!("{}i0", "A".repeat(1998)),
        format!("{}0", "^".repeat(1999)),
        "[1".repeat(1000),
        "{R=".repeat(666),
        format!("{}i{}0", "[1".repeat(666), "]".repeat(666)),
        format!("{}{}0", "{R=".repeat(499), "}".repeat(499)),
        format!("{}{}0", "(R=".repeat(499), ")".repeat(499)),
    ];
    let mut list = vec![0; 3000];
    texts.iter().all(|text| {
        let refusal = library::signature(text.as_bytes(), &mut list).0;
        refusal == 0 || refusal >= 7
    })
}
