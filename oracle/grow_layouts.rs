//! Random trees for layouts: of every shape, most of them with a layout, with sizes and offsets about the limits
//! of the rows; some with bitfields and nodes without a size, and several of these at once.

use crate::grow;
use crate::grow_sizes::{self, code, container, holder, number, one};
use crate::layout::{laid_out, work_out, WorkedOut};
use crate::random::Random;
use crate::rows::{self, LARGEST, ROWS};
use crate::sheet::*;
use crate::trees::{Node, Tree};

pub fn tree(random: &mut Random) -> Tree {
    match random.below(20) {
        0..=2 => grow_sizes::tree(random),
        3..=6 => {
            let tree = settled_shape(random);
            spoilt(random, tree)
        }
        7..=10 => settled_shape(random),
        11 | 12 => record(random, 3),
        13 => nested_arrays(random),
        14 => {
            let tree = about_limit(random);
            spoilt(random, tree)
        }
        _ => about_limit(random),
    }
}

/// Any tree, with what has no layout in it replaced.
fn settled_shape(random: &mut Random) -> Tree {
    let manner = grow::manner(random);
    let mut tree = grow::tree(random, manner);
    settle(random, &mut tree);
    if random.percent(50) {
        shorten(random, &mut tree);
    }
    tree
}

/// Puts something that has a size for each laid-out node that has none, and for each laid-out bitfield.
fn settle(random: &mut Random, tree: &mut Tree) {
    // An array instead of an atomic shows the fields of what it holds; these are then laid out too.
    for at in 0..tree.nodes.len() {
        if tree.nodes[at].kind == ATOMIC && holds_container(tree, at) {
            tree.nodes[at] = Node { kind: ARRAY, first: 1, ..tree.nodes[at] };
        }
    }
    let laid_out = laid_out(tree);
    for (node, _) in tree.nodes.iter_mut().zip(laid_out).filter(|(_, laid_out)| *laid_out) {
        match node.kind {
            BITFIELD | NONE | UNKNOWN | VOID => *node = Node { kind: sized_code(random), second: 0, ..*node },
            TYPED_BITFIELD => *node = Node { kind: ARRAY, first: random.below(4) as u64, second: 0, ..*node },
            UNION if node.count == 1 => node.kind = STRUCT,
            _ => {}
        }
    }
}

/// Whether a struct or union stands at the end of what an atomic holds, and no pointer before it.
fn holds_container(tree: &Tree, at: usize) -> bool {
    let held = tree.nodes[at..].iter().find(|node| !matches!(node.kind, ATOMIC | ARRAY | TYPED_BITFIELD));
    held.is_some_and(|node| is_container(node.kind))
}

/// Lengths that keep most sizes below every limit.
fn shorten(random: &mut Random, tree: &mut Tree) {
    for node in tree.nodes.iter_mut().filter(|node| node.kind == ARRAY) {
        node.first = random.below(4) as u64;
    }
}

/// A code that has a size, of any alignment.
fn sized_code(random: &mut Random) -> u64 {
    match code(random) {
        VOID | UNKNOWN => random.below(17) as u64,
        kind => kind,
    }
}

/// A struct or union of fields of every alignment, nested so deep.
fn record(random: &mut Random, depth: usize) -> Tree {
    let fields: Vec<Tree> = (0..random.within(1, 6)).map(|_| field(random, depth)).collect();
    let kind = random.pick(&[STRUCT, STRUCT, STRUCT, UNION]);
    container(random, kind, &fields)
}

fn field(random: &mut Random, depth: usize) -> Tree {
    let held = |random: &mut Random| if depth == 0 { one(sized_code(random)) } else { field(random, depth - 1) };
    match random.below(14) {
        0 | 1 if depth > 0 => record(random, depth - 1),
        2 => holder(ARRAY, random.below(5) as u64, 0, &held(random)),
        3 => {
            let length = number(random);
            holder(ARRAY, length, 0, &held(random))
        }
        4 => holder(POINTER, 0, 0, &grow_sizes::mixed(random, 2)),
        5 => holder(ATOMIC, 0, 0, &one(sized_code(random))),
        6 => container(random, STRUCT, &[]),
        7..=9 => one(random.pick(&[0, 1, 16])),
        _ => one(sized_code(random)),
    }
}

/// Arrays in arrays, of lengths whose product may be far above every limit and then 0; alone or before another field.
fn nested_arrays(random: &mut Random) -> Tree {
    let mut tree = if random.percent(50) { one(sized_code(random)) } else { record(random, 1) };
    for _ in 0..random.within(1, 6) {
        let length = random.pick(&[0, 1, 2, 1 << 16, 1 << 32, u64::MAX, u64::MAX]);
        tree = holder(ARRAY, length, 0, &tree);
    }
    if random.percent(60) {
        return tree;
    }
    let after = field(random, 0);
    container(random, STRUCT, &[tree, after])
}

/// A struct with a long array among its fields, so that its size or the offset of a field lies about a limit of
/// some row; some in an array of none, so that the size is 0.
fn about_limit(random: &mut Random) -> Tree {
    let row = random.below(ROWS);
    let limit = LARGEST[if random.percent(75) { row } else { random.below(ROWS) }];
    let item = random.pick(&[0, 0, 0, 1, 2, LONG, 9, 12, 14, 15]);
    let before: Vec<Tree> = (0..random.below(3)).map(|_| field(random, 1)).collect();
    let after: Vec<Tree> = (0..random.below(3)).map(|_| field(random, 0)).collect();
    let wrapping = random.below(12);
    let with_length = |length: u64| {
        let mut fields = before.clone();
        fields.push(holder(ARRAY, length, 0, &one(item)));
        fields.extend_from_slice(&after);
        fields
    };
    let name = random.next();
    let make = |length: u64| wrapped(&mut Random::new(name), wrapping, &with_length(length));
    // What the rest takes is known once it is laid out with an empty array.
    let rest = match work_out(&make(0), row) {
        WorkedOut::Places(places) if random.percent(50) => places.bytes,
        WorkedOut::Places(places) => places.largest_offset(),
        _ => 0,
    };
    let size = rows::primitive(item, row).expect("a code that has a size");
    let aim = (limit + 1 + random.below(9) as u128).saturating_sub(rest + random.below(24) as u128);
    make((aim / size).min(u64::MAX.into()) as u64)
}

/// The fields as a struct or union, alone or inside of something else.
fn wrapped(random: &mut Random, wrapping: usize, fields: &[Tree]) -> Tree {
    let kind = if wrapping == 0 { UNION } else { STRUCT };
    let tree = container(random, kind, fields);
    match wrapping {
        1 | 2 => holder(ARRAY, 0, 0, &tree),
        3 => container(random, STRUCT, &[one(0), tree]),
        4 => container(random, UNION, &[one(0), tree]),
        5 => {
            let no_items = holder(ARRAY, 0, 0, &tree);
            container(random, STRUCT, &[one(0), no_items, one(12)])
        }
        6 => container(random, STRUCT, &[tree, one(0)]),
        7 => holder(POINTER, 0, 0, &tree),
        _ => tree,
    }
}

/// With one to three nodes that have no size, or that are bitfields, at any places.
fn spoilt(random: &mut Random, mut tree: Tree) -> Tree {
    for _ in 0..random.within(1, 3) {
        let at = random.below(tree.nodes.len());
        let count = tree.nodes[at].count as usize;
        let new = spoiler(random);
        let nodes = tree.nodes.len() - count + new.nodes.len();
        let name_bytes = tree.names.len() + new.names.len();
        if nodes as u64 > MOST_NODES || name_bytes as u64 > MOST_NAME_BYTES {
            continue;
        }
        grow::splice(&mut tree, at, count, &new);
        grow::repack(&mut tree);
    }
    tree
}

fn spoiler(random: &mut Random) -> Tree {
    let bits = grow::bits(random);
    match random.below(12) {
        0..=2 => Tree { nodes: vec![Node { kind: BITFIELD, first: 0, second: bits, count: 1 }], names: Vec::new() },
        3 | 4 => holder(TYPED_BITFIELD, number(random), bits, &grow_sizes::mixed(random, 1)),
        5 => holder(ARRAY, random.below(2) as u64, 0, &one(VOID)),
        6 => container(random, UNION, &[]),
        7 => {
            let held = record(random, 1);
            holder(ATOMIC, 0, 0, &held)
        }
        8 => holder(ATOMIC, 0, 0, &container(random, STRUCT, &[])),
        9 => container(random, UNION, &[one(VOID), one(INT)]),
        _ => one(random.pick(&[VOID, UNKNOWN, NONE])),
    }
}
