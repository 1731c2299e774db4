//! The reason for a no as request N4 has it, over the crate's own trees: its comparison (helper.rs,
//! `compare_encodings`) in its order, up to the first thing that it finds unequal.

use crate::helper::{ContainerKind, EncodingType, Helper, IndirectionKind, NestingLevel};
use crate::sheet::*;

/// What differs at a node: a word, and the value of each side.
#[derive(Clone, Copy)]
enum Difference<'a> {
    Numbers(&'static str, u64, u64),
    Names(&'a str, &'a str),
}

/// Item numbers down to a node, and the reason's bytes; both are used again from pair to pair.
#[derive(Default)]
pub struct Finder {
    path: Vec<usize>,
    bytes: Vec<u8>,
}

impl Finder {
    /// The reason's bytes, or none for a yes.
    pub fn find<A: EncodingType, B: EncodingType>(
        &mut self,
        a: &A,
        b: &B,
        include_all: bool,
    ) -> Option<&[u8]> {
        self.path.clear();
        let found = walk(a, b, NestingLevel::new(), include_all, &mut self.path)?;
        self.put(found);
        Some(&self.bytes)
    }

    fn put(&mut self, found: Difference) {
        let bytes = &mut self.bytes;
        bytes.clear();
        for (i, &item) in self.path.iter().enumerate() {
            if i > 0 {
                bytes.push(b'.');
            }
            put_number(bytes, item as u64);
        }
        bytes.push(b':');
        match found {
            Difference::Numbers(word, first, second) => {
                bytes.extend_from_slice(word.as_bytes());
                for number in [first, second] {
                    put_length(bytes, number.checked_ilog10().map_or(1, |log| log as usize + 1));
                    put_number(bytes, number);
                }
            }
            Difference::Names(first, second) => {
                bytes.extend_from_slice(b"name");
                for name in [first, second] {
                    put_length(bytes, name.len());
                    bytes.extend_from_slice(name.as_bytes());
                }
            }
        }
    }
}

/// What stands before a value of so many bytes.
fn put_length(bytes: &mut Vec<u8>, length: usize) {
    bytes.push(b' ');
    put_number(bytes, length as u64);
    bytes.push(b':');
}

fn put_number(bytes: &mut Vec<u8>, number: u64) {
    if number >= 10 {
        put_number(bytes, number / 10);
    }
    bytes.push(b'0' + (number % 10) as u8);
}

/// The first difference of two nodes; the path, which leads to them, is then lengthened to where it is.
fn walk<'a, A: EncodingType, B: EncodingType>(
    a: &'a A,
    b: &'a B,
    level: NestingLevel,
    include_all: bool,
    path: &mut Vec<usize>,
) -> Option<Difference<'a>> {
    use Helper::*;
    let level = if include_all { NestingLevel::new() } else { level };
    let (a, b) = (a.helper(), b.helper());
    let kinds = (kind(&a), kind(&b));
    match (a, b) {
        (Primitive(p), Primitive(q)) if p.equivalents().contains(&q) => None,
        (BitField(size, None), BitField(other_size, None)) => numbers("size", size.into(), other_size.into()),
        (BitField(size, Some((offset, held))), BitField(other_size, Some((other_offset, other)))) => {
            numbers("size", size.into(), other_size.into())
                .or_else(|| numbers("offset", *offset, *other_offset))
                .or_else(|| item(0, held, other, level.bitfield(), include_all, path))
        }
        (Indirection(kind, held), Indirection(other_kind, other)) if kind == other_kind => {
            item(0, held, other, level.indirection(kind), include_all, path)
        }
        (Array(length, held), Array(other_length, other)) => numbers("length", length, other_length)
            .or_else(|| item(0, held, other, level.array(), include_all, path)),
        (Container(kind, name, fields), Container(other_kind, other_name, others)) if kind == other_kind => {
            if name != other_name {
                return Some(Difference::Names(name, other_name));
            }
            let level = level.container_include_fields()?;
            if fields.is_empty() || others.is_empty() {
                return None;
            }
            numbers("count", fields.len() as u64, others.len() as u64).or_else(|| {
                let mut pairs = fields.iter().zip(others).enumerate();
                pairs.find_map(|(i, (field, other))| item(i, field, other, level, include_all, path))
            })
        }
        (NoneInvalid, NoneInvalid) => None,
        _ => numbers("kind", kinds.0, kinds.1),
    }
}

/// The same of two items.
fn item<'a, A: EncodingType, B: EncodingType>(
    number: usize,
    a: &'a A,
    b: &'a B,
    level: NestingLevel,
    include_all: bool,
    path: &mut Vec<usize>,
) -> Option<Difference<'a>> {
    path.push(number);
    let found = walk(a, b, level, include_all, path);
    if found.is_none() {
        path.pop();
    }
    found
}

fn numbers(word: &'static str, first: u64, second: u64) -> Option<Difference<'static>> {
    (first != second).then_some(Difference::Numbers(word, first, second))
}

/// The kind's number in a sheet; the crate has its primitives in the same order.
fn kind<E>(helper: &Helper<E>) -> u64 {
    match helper {
        Helper::Primitive(primitive) => *primitive as u64,
        Helper::BitField(_, None) => BITFIELD,
        Helper::BitField(_, Some(_)) => TYPED_BITFIELD,
        Helper::Indirection(IndirectionKind::Pointer, _) => POINTER,
        Helper::Indirection(IndirectionKind::Atomic, _) => ATOMIC,
        Helper::Array(..) => ARRAY,
        Helper::Container(ContainerKind::Struct, ..) => STRUCT,
        Helper::Container(ContainerKind::Union, ..) => UNION,
        Helper::NoneInvalid => NONE,
    }
}
