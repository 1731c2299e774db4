//! Random trees, and changes of trees into related ones.

use crate::plain::{levels, Level};
use crate::random::Random;
use crate::sheet::*;
use crate::trees::{Node, Tree};

/// How a tree is to look.
#[derive(Clone, Copy)]
pub struct Manner {
    pub nodes: usize,
    /// Anything stands anywhere: bitfields of any type, None as a field, Unknown after Object.
    pub wild: bool,
    /// Chains of nodes with one child rather than records.
    pub deep: bool,
    /// Array lengths stay small, so that sizes seldom pass 2^64.
    pub small_numbers: bool,
}

/// Mostly short trees, often about 20 nodes, seldom up to the most.
pub fn manner(random: &mut Random) -> Manner {
    let nodes = match random.below(1000) {
        0..=549 => random.within(1, 8),
        550..=939 => random.within(5, 40),
        940..=991 => random.within(41, 200),
        992..=997 => random.within(201, 2001),
        _ => random.within(1996, 2001),
    };
    Manner { nodes, wild: random.percent(40), deep: random.percent(25), small_numbers: random.percent(75) }
}

pub fn tree(random: &mut Random, manner: Manner) -> Tree {
    let mut tree = Tree::default();
    grow(random, &mut tree, manner.nodes, manner, None);
    tree
}

/// Adds a subtree of exactly `nodes` nodes; where the name bytes run out it is a chain.
fn grow(random: &mut Random, tree: &mut Tree, nodes: usize, manner: Manner, under: Option<u64>) {
    let at = tree.nodes.len();
    if nodes == 1 {
        grow_leaf(random, tree, manner, under);
    } else if !manner.deep || random.percent(8) {
        match name(random, tree) {
            Some(name) if random.percent(75) => grow_container(random, tree, nodes, manner, name),
            _ => grow_holder(random, tree, nodes, manner),
        }
    } else {
        grow_holder(random, tree, nodes, manner);
    }
    tree.nodes[at].count = (tree.nodes.len() - at) as u64;
}

fn grow_leaf(random: &mut Random, tree: &mut Tree, manner: Manner, under: Option<u64>) {
    if under == Some(TYPED_BITFIELD) && !manner.wild {
        let kind = random.pick(&[0, 1, 2, 3, 4, 5, 6, 7, 8, 9, 16]);
        return push(tree, kind, 0, 0);
    }
    let none_may_stand = manner.wild || matches!(under, None | Some(ARRAY | POINTER | ATOMIC));
    match random.below(20) {
        0..=2 => match name(random, tree) {
            Some(name) => push_container(random, tree, name),
            None => push(tree, 2, 0, 0),
        },
        3 | 4 => push(tree, BITFIELD, 0, bits(random)),
        5 if none_may_stand => push(tree, NONE, 0, 0),
        6..=9 => push(tree, random.pick(&[OBJECT, BLOCK, CLASS]), 0, 0),
        10 if manner.wild => push(tree, UNKNOWN, 0, 0),
        _ => push(tree, random.below(24) as u64, 0, 0),
    }
}

fn grow_holder(random: &mut Random, tree: &mut Tree, nodes: usize, manner: Manner) {
    let kind = match random.below(10) {
        0..=4 => POINTER,
        5 | 6 => ATOMIC,
        7 | 8 => ARRAY,
        _ if manner.wild || nodes == 2 => TYPED_BITFIELD,
        _ => POINTER,
    };
    match kind {
        TYPED_BITFIELD => push(tree, kind, number(random), bits(random)),
        ARRAY if manner.small_numbers => push(tree, kind, random.below(4) as u64, 0),
        ARRAY => push(tree, kind, number(random), 0),
        _ => push(tree, kind, 0, 0),
    }
    grow(random, tree, nodes - 1, manner, Some(kind));
}

fn grow_container(random: &mut Random, tree: &mut Tree, nodes: usize, manner: Manner, name: Name) {
    push_container(random, tree, name);
    let mut left = nodes - 1;
    let widest = if random.percent(50) { left } else { random.within(1, 4) };
    while left > 0 {
        let part = random.within(1, widest.min(left));
        grow(random, tree, part, manner, Some(STRUCT));
        left -= part;
    }
}

fn push(tree: &mut Tree, kind: u64, first: u64, second: u64) {
    tree.nodes.push(Node { kind, first, second, count: 1 });
}

fn push_container(random: &mut Random, tree: &mut Tree, name: Name) {
    let kind = if random.percent(65) { STRUCT } else { UNION };
    let start = tree.names.len() as u64;
    tree.names.extend((0..name.length).map(|i| name.bytes[i % name.bytes.len()]));
    push(tree, kind, start, name.length as u64);
}

/// A name is these bytes, repeated up to the length.
struct Name {
    bytes: &'static [u8],
    length: usize,
}

/// Few names, so that equal ones are common; seldom a long one. None when there is no room.
fn name(random: &mut Random, tree: &Tree) -> Option<Name> {
    let room = MOST_NAME_BYTES as usize - tree.names.len();
    let bytes: &[u8] = random.pick(&[&b"R"[..], b"R", b"x", b"?", b"_", b"Rate", b"R1", b"CGPoint", b"0"]);
    let length = match random.below(2000) {
        0 => random.within(1, 1990),
        1..=20 => random.within(1, 70),
        _ => bytes.len(),
    };
    let bytes = if bytes == b"?" && length != 1 { b"Az_09" } else { bytes };
    (length <= room).then_some(Name { bytes, length })
}

pub fn bits(random: &mut Random) -> u64 {
    match random.below(3) {
        0 => random.pick(&[0, 1, 7, 8, 9, 16, 17, 32, 33, 63, 64, 65, 127, 128, 129, 254, 255]),
        1 => random.below(12) as u64,
        _ => random.below(256) as u64,
    }
}

/// Numbers of every count of digits, and those at the borders.
pub fn number(random: &mut Random) -> u64 {
    match random.below(5) {
        0 => {
            random.pick(&[0, 1, 9, 10, 99, 100, 255, 256, 1 << 32, 1 << 61, 1 << 63, u64::MAX - 1, u64::MAX])
        }
        1 => 10u64.pow(random.below(20) as u32) - random.below(2) as u64,
        2 => random.next() >> random.below(64),
        _ => random.below(12) as u64,
    }
}

/// Changes a tree a little, or not at all; the result keeps every limit and has no bad name.
pub fn mutated(random: &mut Random, tree: &Tree) -> Tree {
    let mut changed = tree.clone();
    for _ in 0..random.pick(&[0, 1, 1, 1, 1, 2, 3]) {
        let before = changed.clone();
        mutate(random, &mut changed);
        repack(&mut changed);
        let too_large =
            changed.nodes.len() as u64 > MOST_NODES || changed.names.len() as u64 > MOST_NAME_BYTES;
        if too_large {
            changed = before;
        }
    }
    changed
}

/// Changes a tree in one place: another kind, number, name or count, fields in another order, fields that
/// levels hide; or several of these at one node and below it.
pub fn changed(random: &mut Random, tree: &Tree) -> Tree {
    let mut changed = tree.clone();
    // Not every tree has what is to be changed.
    for _ in 0..6 {
        change(random, &mut changed);
        repack(&mut changed);
        let too_large =
            changed.nodes.len() as u64 > MOST_NODES || changed.names.len() as u64 > MOST_NAME_BYTES;
        if !too_large && changed != *tree {
            break;
        }
        changed.clone_from(tree);
    }
    changed
}

fn change(random: &mut Random, tree: &mut Tree) {
    match random.below(16) {
        0..=2 => change_number(random, tree),
        3 | 4 => change_several(random, tree),
        5 => add_field(random, tree),
        6 => remove_field(random, tree),
        7 => swap_fields(random, tree),
        8 => change_last_byte(random, tree),
        9 => change_last(random, tree),
        10 | 11 => change_code(random, tree),
        _ => mutate(random, tree),
    }
}

fn mutate(random: &mut Random, tree: &mut Tree) {
    match random.below(16) {
        0 | 1 => change_number(random, tree),
        2 | 3 => empty_fields(random, tree),
        4 => add_field(random, tree),
        5 => remove_field(random, tree),
        6..=8 => swap_object(random, tree),
        9 => swap_container(random, tree),
        10 => change_name(random, tree),
        11 | 12 => change_hidden(random, tree),
        13 => change_code(random, tree),
        14 => swap_holder(random, tree),
        _ => change_subtree(random, tree),
    }
}

/// A node that passes the test, looked for from a random one on.
fn find(random: &mut Random, tree: &Tree, test: impl Fn(usize, &Node) -> bool) -> Option<usize> {
    let count = tree.nodes.len();
    let start = random.below(count);
    (start..count).chain(0..start).find(|&at| test(at, &tree.nodes[at]))
}

fn change_number(random: &mut Random, tree: &mut Tree) {
    let numbered = |_: usize, node: &Node| matches!(node.kind, BITFIELD | TYPED_BITFIELD | ARRAY);
    if let Some(at) = find(random, tree, numbered) {
        let offset_too = random.percent(50);
        let node = &mut tree.nodes[at];
        match node.kind {
            BITFIELD => node.second = bits(random),
            TYPED_BITFIELD if offset_too => node.first = number(random),
            TYPED_BITFIELD => node.second = bits(random),
            _ => node.first = node.first.wrapping_add(1),
        }
    }
}

fn empty_fields(random: &mut Random, tree: &mut Tree) {
    if let Some(at) = find(random, tree, |_, node| is_container(node.kind) && node.count > 1) {
        let fields = tree.nodes[at].count as usize - 1;
        splice(tree, at + 1, fields, &Tree::default());
    }
}

fn add_field(random: &mut Random, tree: &mut Tree) {
    if let Some(at) = find(random, tree, |_, node| is_container(node.kind)) {
        let child = a_child_place(random, tree, at);
        let field = small_tree(random);
        insert_under(tree, at, child, &field);
    }
}

fn remove_field(random: &mut Random, tree: &mut Tree) {
    if let Some(at) = find(random, tree, |_, node| is_container(node.kind) && node.count > 1) {
        let end = at + tree.nodes[at].count as usize;
        let child = a_child_place(random, tree, at);
        let child = if child == end { at + 1 } else { child };
        let count = tree.nodes[child].count as usize;
        splice(tree, child, count, &Tree::default());
    }
}

/// Several things at one node and below it, so that it matters which of them is met first.
fn change_several(random: &mut Random, tree: &mut Tree) {
    let bitfield = random.percent(40);
    let test = |_: usize, node: &Node| if bitfield { node.kind == TYPED_BITFIELD } else { node.count > 1 };
    let Some(at) = find(random, tree, test) else { return };
    for below in at + 1..at + tree.nodes[at].count as usize {
        if tree.nodes[below].kind < BITFIELD && random.percent(50) {
            tree.nodes[below].kind = random.below(24) as u64;
        }
    }
    match tree.nodes[at].kind {
        TYPED_BITFIELD => {
            tree.nodes[at].first = number(random);
            tree.nodes[at].second = bits(random);
        }
        ARRAY => tree.nodes[at].first = number(random),
        POINTER | ATOMIC => tree.nodes[at].kind = random.pick(&[POINTER, POINTER, ATOMIC]),
        _ => {
            if random.percent(60) {
                insert_under(tree, at, at + 1, &small_tree(random));
            }
            if random.percent(40) {
                tree.nodes[at].first = tree.names.len() as u64;
                tree.nodes[at].second = 1;
                tree.names.push(b'S');
            }
        }
    }
}

/// Two fields that stand side by side change places.
fn swap_fields(random: &mut Random, tree: &mut Tree) {
    let two_fields = |at: usize, node: &Node| is_container(node.kind) && tree.children(at) > 1;
    if let Some(at) = find(random, tree, two_fields) {
        let mut first = at + 1;
        for _ in 0..random.below(tree.children(at) - 1) {
            first += tree.nodes[first].count as usize;
        }
        let second = first + tree.nodes[first].count as usize;
        let end = second + tree.nodes[second].count as usize;
        tree.nodes[first..end].rotate_left(second - first);
    }
}

/// Another last byte of a name, which may be long.
fn change_last_byte(random: &mut Random, tree: &mut Tree) {
    if let Some(at) = find(random, tree, |_, node| is_container(node.kind)) {
        let mut name = tree.name(&tree.nodes[at]).to_vec();
        *name.last_mut().unwrap() = random.pick(b"RSx_09");
        tree.nodes[at].first = tree.names.len() as u64;
        tree.names.extend_from_slice(&name);
    }
}

/// Another last node, so that all before it are gone through.
fn change_last(random: &mut Random, tree: &mut Tree) {
    let last = tree.nodes.len() - 1;
    if !is_container(tree.nodes[last].kind) {
        tree.nodes[last] = Node { kind: random.below(24) as u64, first: 0, second: 0, count: 1 };
    }
}

/// The place of a child, or the place after the last one.
fn a_child_place(random: &mut Random, tree: &Tree, at: usize) -> usize {
    let mut child = at + 1;
    for _ in 0..random.below(tree.children(at) + 1) {
        child += tree.nodes[child].count as usize;
    }
    child
}

fn swap_object(random: &mut Random, tree: &mut Tree) {
    if let Some(at) = find(random, tree, |_, node| (OBJECT..=CLASS).contains(&node.kind)) {
        tree.nodes[at].kind = random.pick(&[OBJECT, BLOCK, CLASS]);
    }
}

fn swap_container(random: &mut Random, tree: &mut Tree) {
    if let Some(at) = find(random, tree, |_, node| is_container(node.kind)) {
        tree.nodes[at].kind = STRUCT + UNION - tree.nodes[at].kind;
    }
}

fn change_name(random: &mut Random, tree: &mut Tree) {
    if let Some(at) = find(random, tree, |_, node| is_container(node.kind)) {
        let new: &[u8] = random.pick(&[&b"R"[..], b"S", b"Rat", b"Rate_", b"?", b"r"]);
        let start = tree.names.len() as u64;
        tree.names.extend_from_slice(new);
        tree.nodes[at].first = start;
        tree.nodes[at].second = new.len() as u64;
    }
}

/// Gives a container at bottom other fields, which levels do not show.
fn change_hidden(random: &mut Random, tree: &mut Tree) {
    let levels = levels(tree);
    let bottom = |at: usize, node: &Node| is_container(node.kind) && levels[at] == Some(Level::Bottom);
    if let Some(at) = find(random, tree, bottom) {
        let fields = tree.nodes[at].count as usize - 1;
        let removed = if random.percent(50) { fields } else { 0 };
        splice(tree, at + 1, removed, &Tree::default());
        for _ in 0..random.below(3) {
            let field = small_tree(random);
            insert_under(tree, at, at + 1, &field);
        }
    }
}

fn change_code(random: &mut Random, tree: &mut Tree) {
    if let Some(at) = find(random, tree, |_, node| node.kind < BITFIELD || node.kind == NONE) {
        tree.nodes[at].kind = random.below(24) as u64;
    }
}

fn swap_holder(random: &mut Random, tree: &mut Tree) {
    if let Some(at) = find(random, tree, |_, node| node.kind == POINTER || node.kind == ATOMIC) {
        tree.nodes[at].kind = POINTER + ATOMIC - tree.nodes[at].kind;
    }
}

/// Any subtree makes room for another, as a bitfield with a type for one without.
fn change_subtree(random: &mut Random, tree: &mut Tree) {
    let at = random.below(tree.nodes.len());
    let count = tree.nodes[at].count as usize;
    let new = if tree.nodes[at].kind == TYPED_BITFIELD && random.percent(70) {
        let bits = tree.nodes[at].second;
        Tree { nodes: vec![Node { kind: BITFIELD, first: 0, second: bits, count: 1 }], names: Vec::new() }
    } else {
        small_tree(random)
    };
    splice(tree, at, count, &new);
}

fn small_tree(random: &mut Random) -> Tree {
    let nodes = random.within(1, 4);
    let wild = random.percent(40);
    tree(random, Manner { nodes, wild, deep: false, small_numbers: true })
}

/// Puts `new` in place of `removed` nodes at `at`; these are whole subtrees of one parent.
pub fn splice(tree: &mut Tree, at: usize, removed: usize, new: &Tree) {
    for parent in 0..at {
        let node = &mut tree.nodes[parent];
        if parent + node.count as usize > at {
            node.count = node.count - removed as u64 + new.nodes.len() as u64;
        }
    }
    put(tree, at, removed, new);
}

/// Puts `new` at `at` as a further field of `parent`; `at` may be where its fields end.
fn insert_under(tree: &mut Tree, parent: usize, at: usize, new: &Tree) {
    let parent_end = parent + tree.nodes[parent].count as usize;
    for above in 0..=parent {
        let node = &mut tree.nodes[above];
        // Of the nodes up to the parent only it and those above it reach its end.
        if above + node.count as usize >= parent_end {
            node.count += new.nodes.len() as u64;
        }
    }
    put(tree, at, 0, new);
}

/// Puts `new` in place of `removed` nodes at `at`; the counts above them stay as they are.
pub fn put(tree: &mut Tree, at: usize, removed: usize, new: &Tree) {
    let shift = tree.names.len() as u64;
    tree.names.extend_from_slice(&new.names);
    let shifted = new.nodes.iter().map(|node| {
        let first = if is_container(node.kind) { node.first + shift } else { node.first };
        Node { first, ..*node }
    });
    tree.nodes.splice(at..at + removed, shifted);
}

/// Packs the names in node order again.
pub fn repack(tree: &mut Tree) {
    let old = std::mem::take(&mut tree.names);
    for node in tree.nodes.iter_mut().filter(|node| is_container(node.kind)) {
        let start = tree.names.len() as u64;
        tree.names.extend_from_slice(&old[node.first as usize..(node.first + node.second) as usize]);
        node.first = start;
    }
}
