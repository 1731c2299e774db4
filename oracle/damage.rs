//! Sheets that are spoilt in every way that the layout and the names allow.

use crate::grow;
use crate::random::Random;
use crate::sheet::*;
use crate::trees::{Node, Tree};

/// Two lists that may be a sheet.
#[derive(Clone, Default)]
pub struct Raw {
    pub words: Vec<u64>,
    pub names: Vec<u8>,
}

impl Raw {
    pub fn of(tree: &Tree) -> Raw {
        Raw { words: tree.words(), names: tree.names.clone() }
    }

    fn nodes(&self) -> usize {
        self.words.len().saturating_sub(HEADER) / 4
    }
}

/// A sheet with up to two damages, or none, and random words and bytes beyond its used part.
pub fn raw(random: &mut Random) -> Raw {
    if random.below(400) == 0 {
        return too_large(random);
    }
    let mut manner = grow::manner(random);
    if manner.nodes > 40 && random.percent(90) {
        manner.nodes = random.within(1, 12);
    }
    let mut tree = grow::tree(random, manner);
    if random.percent(30) {
        spoil_name(random, &mut tree);
    }
    let mut raw = Raw::of(&tree);
    for _ in 0..random.pick(&[0, 0, 0, 1, 1, 1, 2]) {
        damage(random, &mut raw);
    }
    pad(random, &mut raw);
    if random.percent(12) {
        cut(random, &mut raw);
    }
    raw
}

/// The sheet of a tree with a bad name, or with one damage, which it may bear.
pub fn of(random: &mut Random, tree: &Tree) -> Raw {
    if random.percent(40) {
        let mut tree = tree.clone();
        spoil_name(random, &mut tree);
        return Raw::of(&tree);
    }
    let mut raw = Raw::of(tree);
    damage(random, &mut raw);
    raw
}

/// Puts random words and bytes beyond what the lists hold.
fn pad(random: &mut Random, raw: &mut Raw) {
    for _ in 0..random.below(8) {
        let word = edge(random);
        raw.words.push(word);
    }
    for _ in 0..random.below(8) {
        raw.names.push(random.next() as u8);
    }
}

/// Shortens a list, so that it may be shorter than the header says.
fn cut(random: &mut Random, raw: &mut Raw) {
    if random.percent(50) {
        let length = random.below(raw.words.len() + 1);
        raw.words.truncate(length);
    } else {
        let length = random.below(raw.names.len() + 1);
        raw.names.truncate(length);
    }
}

/// Numbers at the borders of all that the layout says, and such that sums and products wrap.
fn edge(random: &mut Random) -> u64 {
    const EDGES: [u64; 24] = [
        0,
        1,
        2,
        3,
        4,
        5,
        8,
        12,
        23,
        24,
        25,
        30,
        31,
        32,
        255,
        256,
        2000,
        2001,
        2002,
        8008,
        1 << 32,
        1 << 62,
        u64::MAX - 3,
        u64::MAX,
    ];
    match random.below(4) {
        0 => random.next() >> random.below(64),
        1 => random.below(40) as u64,
        _ => random.pick(&EDGES),
    }
}

/// One more, one less, or something else altogether.
fn other(random: &mut Random, value: u64) -> u64 {
    match random.below(3) {
        0 => value.wrapping_add(1),
        1 => value.wrapping_sub(1),
        _ => edge(random),
    }
}

fn damage(random: &mut Random, raw: &mut Raw) {
    match random.below(15) {
        0 | 1 => change_word(random, raw, 0, HEADER),
        2 => change_node_word(random, raw, 0),
        3 => change_node_word(random, raw, 1),
        4 => change_node_word(random, raw, 2),
        5 | 6 => change_node_word(random, raw, 3),
        7 => change_packing(random, raw),
        8 => change_counts_together(random, raw),
        9 => change_node_total(random, raw),
        10 => swap_nodes(random, raw),
        11 => drop_or_double_node(random, raw),
        12 => wrapped_header(raw),
        13 => change_bits(random, raw),
        _ => later_header(raw),
    }
}

fn change_word(random: &mut Random, raw: &mut Raw, low: usize, high: usize) {
    let at = random.within(low, high - 1);
    if at < raw.words.len() {
        raw.words[at] = other(random, raw.words[at]);
    }
}

fn change_node_word(random: &mut Random, raw: &mut Raw, which: usize) {
    if raw.nodes() > 0 {
        let at = HEADER + 4 * random.below(raw.nodes()) + which;
        raw.words[at] = other(random, raw.words[at]);
    }
}

/// A name begins or ends elsewhere, or there are more or fewer name bytes than are packed.
fn change_packing(random: &mut Random, raw: &mut Raw) {
    let containers: Vec<usize> =
        (0..raw.nodes()).map(|i| HEADER + 4 * i).filter(|&at| is_container(raw.words[at])).collect();
    if containers.is_empty() || random.percent(30) {
        if raw.words.len() >= HEADER {
            raw.words[2] = other(random, raw.words[2]);
            raw.names.push(b'R');
        }
        return;
    }
    let at = random.pick(&containers);
    match random.below(3) {
        0 => raw.words[at + 1] = other(random, raw.words[at + 1]),
        1 => raw.words[at + 2] = other(random, raw.words[at + 2]),
        _ => {
            // A byte goes from one name to its neighbour: still packed, or not.
            let next = random.pick(&containers);
            raw.words[at + 2] = raw.words[at + 2].wrapping_add(1);
            raw.words[next + 1] = raw.words[next + 1].wrapping_add(1);
            raw.words[next + 2] = raw.words[next + 2].wrapping_sub(1);
        }
    }
}

/// Two counts change by one, so that a child moves out of its parent or into another.
fn change_counts_together(random: &mut Random, raw: &mut Raw) {
    if raw.nodes() > 1 {
        let (a, b) = (random.below(raw.nodes()), random.below(raw.nodes()));
        let step = if random.percent(50) { 1 } else { u64::MAX };
        for node in [a, b] {
            let at = HEADER + 4 * node + 3;
            raw.words[at] = raw.words[at].wrapping_add(step);
        }
    }
}

/// The header speaks of one node more or less, and the words used agree.
fn change_node_total(random: &mut Random, raw: &mut Raw) {
    if raw.words.len() >= HEADER {
        let step = if random.percent(50) { 1 } else { u64::MAX };
        raw.words[0] = raw.words[0].wrapping_add(step);
        raw.words[3] = raw.words[0].wrapping_mul(4).wrapping_add(4);
        if random.percent(50) {
            raw.words.extend([2, 0, 0, 1]);
        }
    }
}

fn swap_nodes(random: &mut Random, raw: &mut Raw) {
    if raw.nodes() > 1 {
        let (a, b) = (random.below(raw.nodes()), random.below(raw.nodes()));
        for word in HEADER..HEADER + 4 {
            raw.words.swap(4 * a + word, 4 * b + word);
        }
    }
}

fn drop_or_double_node(random: &mut Random, raw: &mut Raw) {
    if raw.nodes() > 0 {
        let at = HEADER + 4 * random.below(raw.nodes());
        let node: Vec<u64> = raw.words[at..at + 4].to_vec();
        let doubled = random.percent(50);
        raw.words.splice(at..at + 4, if doubled { [&node[..], &node[..]].concat() } else { Vec::new() });
        if random.percent(50) {
            raw.words[0] = raw.nodes() as u64;
            raw.words[3] = raw.words.len() as u64;
        }
    }
}

/// A bitfield of 255 bits is the largest.
fn change_bits(random: &mut Random, raw: &mut Raw) {
    let first = (0..raw.nodes())
        .map(|i| HEADER + 4 * i)
        .find(|&at| matches!(raw.words[at], BITFIELD | TYPED_BITFIELD));
    if let Some(at) = first {
        raw.words[at + 2] = random.pick(&[255, 256, 257, u64::MAX]);
    }
}

/// Four times this count of nodes is 0 again in 64 bits.
fn wrapped_header(raw: &mut Raw) {
    if raw.words.len() >= HEADER {
        raw.words[0] = 1 << 62;
        raw.words[3] = 4;
    }
}

/// One more word in the header, and an offset that says so.
fn later_header(raw: &mut Raw) {
    if raw.words.len() >= HEADER {
        raw.words[1] = 5;
        raw.words[3] = raw.words[3].wrapping_add(1);
        raw.words.insert(HEADER, 0);
    }
}

/// A name that breaks the rule while the layout is kept, hidden or not.
fn spoil_name(random: &mut Random, tree: &mut Tree) {
    let containers: Vec<usize> =
        (0..tree.nodes.len()).filter(|&at| is_container(tree.nodes[at].kind)).collect();
    if containers.is_empty() {
        return;
    }
    let at = random.pick(&containers);
    let mut name = tree.name(&tree.nodes[at]).to_vec();
    match random.below(6) {
        0 => name.clear(),
        1 => name = b"??".to_vec(),
        2 => name.push(b'?'),
        3 => name.insert(0, b'?'),
        _ => {
            let byte = random.below(name.len());
            name[byte] = match random.below(3) {
                0 => random.next() as u8,
                1 => random.pick(b"@/`{Z[^~-=)} "),
                _ => random.pick(&[0, 0x7f, 0x80, 0xc3, 0xff]),
            };
        }
    }
    let start = tree.names.len() as u64;
    tree.names.extend_from_slice(&name);
    tree.nodes[at].first = start;
    tree.nodes[at].second = name.len() as u64;
    grow::repack(tree);
}

/// Right in all but one limit: 2,002 nodes, or 2,001 name bytes; or just at both limits.
fn too_large(random: &mut Random) -> Raw {
    let mut tree = Tree::default();
    let fields = random.pick(&[MOST_NODES - 1, MOST_NODES]);
    let name_bytes = random.pick(&[MOST_NAME_BYTES, MOST_NAME_BYTES + 1]);
    tree.nodes.push(Node { kind: STRUCT, first: 0, second: name_bytes, count: fields + 1 });
    tree.nodes.extend((0..fields).map(|_| Node { kind: 2, first: 0, second: 0, count: 1 }));
    tree.names = vec![b'n'; name_bytes as usize];
    Raw::of(&tree)
}
