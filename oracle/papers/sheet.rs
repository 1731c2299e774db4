//! Document 01, "The sheet": a plain test of the layout and of the names, written from that paragraph.

/// The kinds that are spoken of by name; 0 to 23 are the primitives in the crate's order.
pub const CHAR: u64 = 0;
pub const INT: u64 = 2;
pub const LONG: u64 = 3;
pub const UNSIGNED_LONG: u64 = 8;
pub const DOUBLE: u64 = 11;
pub const VOID: u64 = 17;
pub const OBJECT: u64 = 19;
pub const BLOCK: u64 = 20;
pub const CLASS: u64 = 21;
pub const UNKNOWN: u64 = 23;
pub const BITFIELD: u64 = 24;
pub const TYPED_BITFIELD: u64 = 25;
pub const POINTER: u64 = 26;
pub const ATOMIC: u64 = 27;
pub const ARRAY: u64 = 28;
pub const STRUCT: u64 = 29;
pub const UNION: u64 = 30;
pub const NONE: u64 = 31;

pub const MOST_NODES: u64 = 2001;
pub const MOST_NAME_BYTES: u64 = 2000;
pub const HEADER: usize = 4;

/// Refusals 3 and 4.
pub const BAD_LAYOUT: u64 = 3;
pub const BAD_NAME: u64 = 4;

pub fn is_container(kind: u64) -> bool {
    kind == STRUCT || kind == UNION
}

pub fn has_one_child(kind: u64) -> bool {
    (TYPED_BITFIELD..=ARRAY).contains(&kind)
}

/// Whether the two lists keep the layout; lists longer than what is used are fine.
pub fn keeps_layout(words: &[u64], names: &[u8]) -> bool {
    header_is_right(words, names) && nodes_are_right(words)
}

fn header_is_right(words: &[u64], names: &[u8]) -> bool {
    if words.len() < HEADER {
        return false;
    }
    let (nodes, offset, name_bytes, used) = (words[0], words[1], words[2], words[3]);
    (1..=MOST_NODES).contains(&nodes)
        && offset == HEADER as u64
        && name_bytes <= MOST_NAME_BYTES
        && used == 4 + 4 * nodes
        && words.len() as u64 >= used
        && names.len() as u64 >= name_bytes
}

fn nodes_are_right(words: &[u64]) -> bool {
    let count = words[0] as usize;
    let nodes = &words[HEADER..HEADER + 4 * count];
    let mut name_start = 0;
    for i in 0..count {
        let (kind, first, second) = (nodes[4 * i], nodes[4 * i + 1], nodes[4 * i + 2]);
        if !numbers_are_right(kind, first, second, name_start) {
            return false;
        }
        if is_container(kind) {
            // A length that cannot be added has no place in 2,000 bytes either.
            if second > MOST_NAME_BYTES {
                return false;
            }
            name_start += second;
        }
    }
    name_start == words[2] && tree_end(nodes, 0, count) == Some(count)
}

fn numbers_are_right(kind: u64, first: u64, second: u64, name_start: u64) -> bool {
    match kind {
        BITFIELD => first == 0 && second <= 255,
        TYPED_BITFIELD => second <= 255,
        ARRAY => second == 0,
        STRUCT | UNION => first == name_start,
        _ => kind <= NONE && first == 0 && second == 0,
    }
}

/// Where the subtree of node `at` ends, if its counts fit together and stay below `end`.
fn tree_end(nodes: &[u64], at: usize, end: usize) -> Option<usize> {
    if at >= end {
        return None;
    }
    let kind = nodes[4 * at];
    let count = nodes[4 * at + 3];
    if count == 0 || count > (end - at) as u64 {
        return None;
    }
    let own_end = at + count as usize;
    let mut children = 0;
    let mut child = at + 1;
    while child < own_end {
        child = tree_end(nodes, child, own_end)?;
        children += 1;
    }
    let fits = if is_container(kind) {
        true
    } else if has_one_child(kind) {
        children == 1
    } else {
        children == 0
    };
    fits.then_some(own_end)
}

/// Whether every container name, hidden ones included, is good. The layout must be kept.
pub fn names_are_good(words: &[u64], names: &[u8]) -> bool {
    let used = words[3] as usize;
    words[HEADER..used].chunks_exact(4).filter(|node| is_container(node[0])).all(|node| {
        let start = node[1] as usize;
        is_good_name(&names[start..start + node[2] as usize])
    })
}

pub fn is_good_name(name: &[u8]) -> bool {
    name == b"?" || (!name.is_empty() && name.iter().all(|&b| b == b'_' || b.is_ascii_alphanumeric()))
}
