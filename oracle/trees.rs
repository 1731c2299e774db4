//! Trees laid out flat, and the crate's two tree types made from them and turned into them.

use crate::sheet::*;
use crate::{Encoding, EncodingBox};

/// The four words of a node.
#[derive(Clone, Copy, Debug, PartialEq)]
pub struct Node {
    pub kind: u64,
    pub first: u64,
    pub second: u64,
    pub count: u64,
}

/// The nodes of a sheet and its name bytes, without the header: parent first, children in order.
#[derive(Clone, Debug, Default, PartialEq)]
pub struct Tree {
    pub nodes: Vec<Node>,
    pub names: Vec<u8>,
}

impl Tree {
    /// The tree of a sheet that keeps the layout.
    pub fn from_sheet(words: &[u64], names: &[u8]) -> Option<Tree> {
        if !keeps_layout(words, names) {
            return None;
        }
        let nodes = words[HEADER..words[3] as usize].chunks_exact(4);
        let nodes = nodes.map(|w| Node { kind: w[0], first: w[1], second: w[2], count: w[3] }).collect();
        Some(Tree { nodes, names: names[..words[2] as usize].to_vec() })
    }

    pub fn from_box(from: &EncodingBox) -> Tree {
        let mut tree = Tree::default();
        tree.refill(from);
        tree
    }

    /// The same, in lists that are already there.
    pub fn refill(&mut self, from: &EncodingBox) {
        self.nodes.clear();
        self.names.clear();
        self.append(from);
    }

    fn append(&mut self, from: &EncodingBox) {
        use EncodingBox as E;
        let at = self.nodes.len();
        let (kind, first, second) = match from {
            E::BitField(size, None) => (BITFIELD, 0, u64::from(*size)),
            E::BitField(size, Some(typed)) => (TYPED_BITFIELD, typed.0, u64::from(*size)),
            E::Pointer(_) => (POINTER, 0, 0),
            E::Atomic(_) => (ATOMIC, 0, 0),
            E::Array(length, _) => (ARRAY, *length, 0),
            E::Struct(name, _) => (STRUCT, self.names.len() as u64, name.len() as u64),
            E::Union(name, _) => (UNION, self.names.len() as u64, name.len() as u64),
            E::None => (NONE, 0, 0),
            code => (primitive_kind(code), 0, 0),
        };
        self.nodes.push(Node { kind, first, second, count: 0 });
        match from {
            E::BitField(_, Some(typed)) => self.append(&typed.1),
            E::Pointer(held) | E::Atomic(held) | E::Array(_, held) => self.append(held),
            E::Struct(name, fields) | E::Union(name, fields) => {
                self.names.extend_from_slice(name.as_bytes());
                for field in fields {
                    self.append(field);
                }
            }
            _ => {}
        }
        self.nodes[at].count = (self.nodes.len() - at) as u64;
    }

    /// The words of the sheet, put into `words`.
    pub fn write_words(&self, words: &mut Vec<u64>) {
        let nodes = self.nodes.len() as u64;
        words.clear();
        words.extend([nodes, HEADER as u64, self.names.len() as u64, 4 + 4 * nodes]);
        for node in &self.nodes {
            words.extend([node.kind, node.first, node.second, node.count]);
        }
    }

    pub fn words(&self) -> Vec<u64> {
        let mut words = Vec::new();
        self.write_words(&mut words);
        words
    }

    pub fn name(&self, node: &Node) -> &[u8] {
        &self.names[node.first as usize..(node.first + node.second) as usize]
    }

    pub fn has(&self, kind: u64) -> bool {
        self.nodes.iter().any(|node| node.kind == kind)
    }

    /// The same tree with one code in the place of another.
    pub fn with_code(&self, code: u64, other: u64) -> Tree {
        let mut tree = self.clone();
        for node in tree.nodes.iter_mut().filter(|node| node.kind == other) {
            node.kind = code;
        }
        tree
    }

    /// How many children the node at a place has.
    pub fn children(&self, at: usize) -> usize {
        let end = at + self.nodes[at].count as usize;
        let mut child = at + 1;
        let mut children = 0;
        while child < end {
            child += self.nodes[child].count as usize;
            children += 1;
        }
        children
    }

    /// The boxed tree. Children come before parents when the nodes are taken from the last on.
    pub fn to_box(&self) -> EncodingBox {
        use EncodingBox as E;
        let mut open: Vec<E> = Vec::new();
        for (at, node) in self.nodes.iter().enumerate().rev() {
            let made = match node.kind {
                BITFIELD => E::BitField(node.second as u8, None),
                TYPED_BITFIELD => {
                    E::BitField(node.second as u8, Some(Box::new((node.first, open.pop().unwrap()))))
                }
                POINTER => E::Pointer(Box::new(open.pop().unwrap())),
                ATOMIC => E::Atomic(Box::new(open.pop().unwrap())),
                ARRAY => E::Array(node.first, Box::new(open.pop().unwrap())),
                STRUCT | UNION => {
                    let name = as_text(self.name(node)).to_string();
                    let left = open.len() - self.children(at);
                    let fields = open.drain(left..).rev().collect();
                    if node.kind == STRUCT {
                        E::Struct(name, fields)
                    } else {
                        E::Union(name, fields)
                    }
                }
                NONE => E::None,
                kind => primitive_box(kind),
            };
            open.push(made);
        }
        open.pop().unwrap()
    }
}

/// Names are held as text by the crate; callers have seen to it that they are UTF-8.
fn as_text(name: &[u8]) -> &str {
    std::str::from_utf8(name).expect("names are UTF-8")
}

/// Memory for the `Encoding` of one tree at a time; it is used again for the next tree.
#[derive(Default)]
pub struct Arena {
    held: Vec<Encoding>,
    typed: Vec<(u64, Encoding)>,
    open: Vec<Encoding>,
}

impl Arena {
    pub fn encoding<'a>(&'a mut self, tree: &'a Tree) -> &'a Encoding {
        self.make(tree, None)
    }

    /// The same tree with codes that have the sizes of a row here (README.md says which and why).
    pub fn encoding_in_row<'a>(&'a mut self, tree: &'a Tree, row: usize) -> &'a Encoding {
        self.make(tree, Some(row))
    }

    fn make<'a>(&'a mut self, tree: &'a Tree, row: Option<usize>) -> &'a Encoding {
        self.held.clear();
        self.typed.clear();
        self.open.clear();
        // References into these two lists are handed out below: they may not grow after this.
        self.held.reserve(tree.nodes.len());
        self.typed.reserve(tree.nodes.len());
        for (at, node) in tree.nodes.iter().enumerate().rev() {
            let made = match node.kind {
                BITFIELD => Encoding::BitField(node.second as u8, None),
                TYPED_BITFIELD => Encoding::BitField(node.second as u8, Some(self.keep_typed(node.first))),
                POINTER if row == Some(2) => {
                    self.open.pop();
                    Encoding::Int
                }
                POINTER => Encoding::Pointer(&self.keep(1)[0]),
                ATOMIC => Encoding::Atomic(&self.keep(1)[0]),
                ARRAY => Encoding::Array(node.first, &self.keep(1)[0]),
                STRUCT => Encoding::Struct(lengthened_name(tree.name(node)), self.keep(tree.children(at))),
                UNION => Encoding::Union(lengthened_name(tree.name(node)), self.keep(tree.children(at))),
                NONE => Encoding::None,
                kind => primitive(stand_in(kind, row)),
            };
            self.open.push(made);
        }
        &self.keep(1)[0]
    }

    /// Moves the last open trees into the arena, first child first.
    fn keep(&mut self, count: usize) -> &'static [Encoding] {
        let start = self.held.len();
        for _ in 0..count {
            self.held.push(self.open.pop().unwrap());
        }
        // SAFETY: the list does not grow past its capacity while a tree is made, and the tree
        // is only lent for as long as the arena and the name bytes are.
        unsafe { std::slice::from_raw_parts(self.held.as_ptr().add(start), count) }
    }

    fn keep_typed(&mut self, offset: u64) -> &'static (u64, Encoding) {
        self.typed.push((offset, self.open.pop().unwrap()));
        // SAFETY: as in `keep`.
        unsafe { &*self.typed.as_ptr().add(self.typed.len() - 1) }
    }
}

/// A code that here has the size that this one has in a row: of 64-bit Apple ARM (0), x86_64 (1) or ARM (2), or
/// with the guide's long (3).
fn stand_in(kind: u64, row: Option<usize>) -> u64 {
    match (row, kind) {
        (Some(0 | 2 | 3), 12) => 11,
        (Some(0 | 2 | 3), 15) => 14,
        (Some(2 | 3), LONG) => INT,
        (Some(2), UNSIGNED_LONG | 18..=22) => INT,
        _ => kind,
    }
}

fn lengthened_name(name: &[u8]) -> &'static str {
    // SAFETY: the tree that is made is lent no longer than the name bytes.
    unsafe { std::mem::transmute::<&str, &'static str>(as_text(name)) }
}

/// One list of the codes serves both tree types.
macro_rules! primitives {
    ($($kind:literal $code:ident,)*) => {
        fn primitive(kind: u64) -> Encoding {
            match kind {
                $($kind => Encoding::$code,)*
                _ => unreachable!("the layout was tested"),
            }
        }

        fn primitive_box(kind: u64) -> EncodingBox {
            match kind {
                $($kind => EncodingBox::$code,)*
                _ => unreachable!("the layout was tested"),
            }
        }

        fn primitive_kind(code: &EncodingBox) -> u64 {
            match code {
                $(EncodingBox::$code => $kind,)*
                _ => unreachable!("the other trees were taken before"),
            }
        }
    };
}

primitives! {
    0 Char, 1 Short, 2 Int, 3 Long, 4 LongLong,
    5 UChar, 6 UShort, 7 UInt, 8 ULong, 9 ULongLong,
    10 Float, 11 Double, 12 LongDouble,
    13 FloatComplex, 14 DoubleComplex, 15 LongDoubleComplex,
    16 Bool, 17 Void, 18 String,
    19 Object, 20 Block, 21 Class, 22 Sel, 23 Unknown,
}
