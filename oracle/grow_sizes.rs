//! Random trees whose sizes lie about the limits of the rows, of what differs between rows.

use crate::grow;
use crate::random::Random;
use crate::rows;
use crate::sheet::*;
use crate::trees::{Node, Tree};

pub fn tree(random: &mut Random) -> Tree {
    let tree = match random.below(20) {
        0..=4 => renumbered(random),
        5..=9 => mixed(random, 3),
        10..=14 => sum_about_limit(random),
        _ => product_about_limit(random),
    };
    wrapped(random, tree)
}

/// Any tree, with other lengths, and codes that have other sizes in other rows.
fn renumbered(random: &mut Random) -> Tree {
    let manner = grow::manner(random);
    let mut tree = grow::tree(random, manner);
    let chance = random.pick(&[0, 10, 60]);
    for node in &mut tree.nodes {
        if !random.percent(chance) {
            continue;
        }
        match node.kind {
            ARRAY | TYPED_BITFIELD => node.first = number(random),
            0..=23 => node.kind = code(random),
            _ => {}
        }
    }
    tree
}

/// A tree of up to so many levels, of every kind.
pub fn mixed(random: &mut Random, depth: usize) -> Tree {
    if depth == 0 {
        return leaf(random);
    }
    match random.below(12) {
        0 => leaf(random),
        1..=3 => holder(ARRAY, number(random), 0, &mixed(random, depth - 1)),
        4 => holder(POINTER, 0, 0, &mixed(random, depth - 1)),
        5 => holder(ATOMIC, 0, 0, &mixed(random, depth - 1)),
        6 | 7 => {
            let depth = if random.percent(70) { 0 } else { depth - 1 };
            holder(TYPED_BITFIELD, number(random), grow::bits(random), &mixed(random, depth))
        }
        _ => {
            let kind = random.pick(&[STRUCT, STRUCT, STRUCT, UNION, UNION]);
            let fields: Vec<Tree> = (0..random.below(5)).map(|_| mixed(random, depth - 1)).collect();
            container(random, kind, &fields)
        }
    }
}

/// A struct that has a size about a limit in some row, in fields of which some are arrays of char, long or
/// unsigned long.
fn sum_about_limit(random: &mut Random) -> Tree {
    let row = random.below(rows::ROWS);
    // Mostly the row's own limit; that of another must do nothing here.
    let limited = if random.percent(70) { row } else { random.below(rows::ROWS) };
    let mut left = rows::LARGEST[limited] + 1 + random.below(7) as u128 - 4;
    let mut fields = Vec::new();
    for _ in 0..random.below(5) {
        let field = mixed(random, 1);
        match rows::measure(&field, row).bytes {
            Some(bytes) if bytes <= left => {
                left -= bytes;
                fields.push(field);
            }
            _ => {}
        }
    }
    while left > 0 {
        let item = one(random.pick(&[0, 0, LONG, UNSIGNED_LONG]));
        let bytes = rows::measure(&item, row).bytes.expect("a code that has a size");
        let part = if random.percent(50) { left } else { random.next().into() };
        let length = part.min(left).min(u64::MAX.into()) / bytes;
        left -= length * bytes;
        let at = random.below(fields.len() + 1);
        fields.insert(at, holder(ARRAY, length as u64, 0, &item));
    }
    container(random, STRUCT, &fields)
}

/// Nested arrays of a size at a limit, up to two off it, or half of it.
fn product_about_limit(random: &mut Random) -> Tree {
    // Of 2^32 - 1, 2^32 + 1, 2^32 - 2, 2^64 - 1, 2^64 + 1, 2^64 - 2; and twos, as many as a power needs.
    const FACTORS: [&[u64]; 7] = [
        &[3, 5, 17, 257, 65537],
        &[641, 6700417],
        &[2, 2147483647],
        &[3, 5, 17, 257, 641, 65537, 6700417],
        &[274177, 67280421310721],
        &[2, 7, 7, 73, 127, 337, 92737, 649657],
        &[2; 64],
    ];
    let mut item = one(random.pick(&[0, 5, 16]));
    let mut factors = if random.percent(40) { FACTORS[6] } else { random.pick(&FACTORS) };
    if factors.len() == 64 {
        item = if random.percent(70) { one(code(random)) } else { leaf(random) };
        let bytes = rows::measure(&item, random.below(rows::ROWS)).bytes.unwrap_or(1);
        let twos = random.pick(&[31, 32, 32, 63, 64, 64]) - bytes.max(1).ilog2() as usize;
        factors = &factors[..twos];
    }
    let mut lengths = vec![1u64; random.within(1, 5)];
    for factor in factors {
        let at = random.below(lengths.len());
        lengths[at] = lengths[at].saturating_mul(*factor);
    }
    lengths.iter().fold(item, |item, &length| holder(ARRAY, length, 0, &item))
}

/// The tree as it is, or inside of something that may undo or hide its size, or change it a little.
fn wrapped(random: &mut Random, tree: Tree) -> Tree {
    if tree.nodes.len() > 1000 || tree.names.len() > 1000 {
        return tree;
    }
    let beside = mixed(random, 1);
    match random.below(16) {
        0 => holder(ARRAY, random.pick(&[0, 0, 1, 2]), 0, &tree),
        1 => holder(TYPED_BITFIELD, number(random), grow::bits(random), &tree),
        2 => holder(random.pick(&[POINTER, ATOMIC]), 0, 0, &tree),
        3 => container(random, UNION, &[one(17), tree, beside]),
        4 => container(random, UNION, &[beside, tree]),
        5 => container(random, STRUCT, &[tree, one(17)]),
        6 => container(random, STRUCT, &[beside, tree]),
        7 => {
            let no_items = holder(ARRAY, 0, 0, &tree);
            container(random, STRUCT, &[no_items, beside])
        }
        _ => tree,
    }
}

fn leaf(random: &mut Random) -> Tree {
    match random.below(10) {
        0 => numbered(BITFIELD, 0, grow::bits(random)),
        1 => {
            let kind = random.pick(&[STRUCT, UNION]);
            container(random, kind, &[])
        }
        2 => one(NONE),
        _ => one(code(random)),
    }
}

/// Mostly one that the rows differ in.
pub fn code(random: &mut Random) -> u64 {
    if random.percent(30) {
        random.below(24) as u64
    } else {
        random.pick(&[0, 2, 3, 3, 3, 3, 8, 8, 8, 8, 12, 12, 12, 15, 15, 17, 18, OBJECT, BLOCK, CLASS, 22])
    }
}

/// About 0, the limits, and what makes them when it is multiplied by a size.
pub fn number(random: &mut Random) -> u64 {
    const MIDDLES: [u64; 20] = [
        0, 0, 0, 1, 1, 2, 3, 16, 1 << 16, 1 << 28, 1 << 29, 1 << 30, 1 << 32, 1 << 32, 1 << 59, 1 << 60,
        1 << 61, 1 << 62, 1 << 62, u64::MAX,
    ];
    let middle = random.pick(&MIDDLES);
    match random.below(3) {
        0 => middle,
        1 => middle.saturating_sub(random.below(3) as u64),
        _ => middle.saturating_add(random.below(3) as u64),
    }
}

pub fn one(kind: u64) -> Tree {
    numbered(kind, 0, 0)
}

fn numbered(kind: u64, first: u64, second: u64) -> Tree {
    Tree { nodes: vec![Node { kind, first, second, count: 1 }], names: Vec::new() }
}

pub fn holder(kind: u64, first: u64, second: u64, held: &Tree) -> Tree {
    let mut tree = numbered(kind, first, second);
    with_children(&mut tree, std::slice::from_ref(held));
    tree
}

pub fn container(random: &mut Random, kind: u64, fields: &[Tree]) -> Tree {
    let name = random.pick(&[&b"R"[..], b"?", b"Rate"]);
    let mut tree = numbered(kind, 0, name.len() as u64);
    tree.names.extend_from_slice(name);
    with_children(&mut tree, fields);
    tree
}

fn with_children(tree: &mut Tree, children: &[Tree]) {
    for child in children {
        grow::put(tree, tree.nodes.len(), 0, child);
    }
    tree.nodes[0].count = tree.nodes.len() as u64;
}
