//! Layout over the crate's own boxed trees, as one would write it in Rust: one recursive pass that pushes a number
//! for each node, with checked sums. The benchmark sets it beside the library, and the runs hold it to layout.rs.

use crate::EncodingBox;

/// Why there is no layout, other than that something has no size.
#[derive(Debug, PartialEq)]
pub enum Refusal {
    NoSuchRow,
    BitField(usize),
    TooLarge,
}

#[derive(Clone, Copy)]
struct Machine {
    long: u64,
    unsigned_long: u64,
    pointer: u64,
    long_double: u64,
    largest: u64,
}

const MACHINES: [Machine; 4] = [
    Machine { long: 8, unsigned_long: 8, pointer: 8, long_double: 8, largest: u64::MAX },
    Machine { long: 8, unsigned_long: 8, pointer: 8, long_double: 16, largest: u64::MAX },
    Machine { long: 4, unsigned_long: 4, pointer: 4, long_double: 8, largest: u32::MAX as u64 },
    Machine { long: 4, unsigned_long: 8, pointer: 8, long_double: 8, largest: u64::MAX },
];

/// No bytes: more than 2^64 - 1.
#[derive(Clone, Copy)]
struct Extent {
    bytes: Option<u64>,
    alignment: u64,
}

/// The size and alignment of the tree, with a number for each node in `offsets`; none if it has no size.
pub fn layout(tree: &EncodingBox, row: usize, offsets: &mut Vec<u64>) -> Result<Option<(u64, u64)>, Refusal> {
    offsets.clear();
    let machine = *MACHINES.get(row).ok_or(Refusal::NoSuchRow)?;
    let mut pass = Pass { machine, offsets, has_size: true, fits: true };
    let extent = pass.node(tree, false)?;
    match extent.bytes {
        _ if !pass.has_size => Ok(None),
        Some(bytes) if pass.fits && bytes <= machine.largest => Ok(Some((bytes, extent.alignment))),
        _ => Err(Refusal::TooLarge),
    }
}

struct Pass<'a> {
    machine: Machine,
    offsets: &'a mut Vec<u64>,
    /// A later bitfield goes before a node without a size, and that before an offset that is too large.
    has_size: bool,
    fits: bool,
}

impl Pass<'_> {
    fn node(&mut self, tree: &EncodingBox, in_atomic: bool) -> Result<Extent, Refusal> {
        use EncodingBox as E;
        let number = self.offsets.len();
        self.offsets.push(0);
        let Machine { long, unsigned_long, pointer, long_double, .. } = self.machine;
        Ok(match tree {
            E::Char | E::UChar | E::Bool => aligned(1, 1),
            E::Short | E::UShort => aligned(2, 2),
            E::Int | E::UInt | E::Float => aligned(4, 4),
            E::LongLong | E::ULongLong | E::Double => aligned(8, 8),
            E::Long => aligned(long, long),
            E::ULong => aligned(unsigned_long, unsigned_long),
            E::LongDouble => aligned(long_double, long_double),
            E::FloatComplex => aligned(8, 4),
            E::DoubleComplex => aligned(16, 8),
            E::LongDoubleComplex => aligned(2 * long_double, long_double),
            E::String | E::Object | E::Block | E::Class | E::Sel => aligned(pointer, pointer),
            E::Pointer(held) => {
                self.skip(held);
                aligned(pointer, pointer)
            }
            E::BitField(..) => return Err(Refusal::BitField(number)),
            E::Atomic(held) => self.node(held, true)?,
            E::Array(length, item) => {
                let item = self.node(item, in_atomic)?;
                let bytes = if *length == 0 { Some(0) } else { item.bytes.and_then(|n| n.checked_mul(*length)) };
                Extent { bytes, ..item }
            }
            E::Struct(_, fields) if !in_atomic => self.fields(fields)?,
            E::Union(_, members) if !in_atomic && !members.is_empty() => self.members(members)?,
            E::Struct(_, hidden) | E::Union(_, hidden) => {
                hidden.iter().for_each(|field| self.skip(field));
                self.without_size()
            }
            E::Void | E::Unknown | E::None => self.without_size(),
        })
    }

    fn fields(&mut self, fields: &[EncodingBox]) -> Result<Extent, Refusal> {
        let (mut end, mut alignment) = (Some(0), 1);
        for field in fields {
            let number = self.offsets.len();
            let extent = self.node(field, false)?;
            let offset = end.and_then(|end| round_up(end, extent.alignment));
            match offset.filter(|&offset| offset <= self.machine.largest) {
                Some(offset) => self.offsets[number] = offset,
                None => self.fits = false,
            }
            end = offset.and_then(|offset| offset.checked_add(extent.bytes?));
            alignment = alignment.max(extent.alignment);
        }
        Ok(Extent { bytes: end.and_then(|end| round_up(end, alignment)), alignment })
    }

    fn members(&mut self, members: &[EncodingBox]) -> Result<Extent, Refusal> {
        let mut whole = aligned(0, 1);
        for member in members {
            let extent = self.node(member, false)?;
            whole.bytes = whole.bytes.and_then(|bytes| Some(bytes.max(extent.bytes?)));
            whole.alignment = whole.alignment.max(extent.alignment);
        }
        Ok(Extent { bytes: whole.bytes.and_then(|end| round_up(end, whole.alignment)), ..whole })
    }

    fn without_size(&mut self) -> Extent {
        self.has_size = false;
        aligned(0, 1)
    }

    /// What is not laid out has the number 0.
    fn skip(&mut self, tree: &EncodingBox) {
        use EncodingBox as E;
        self.offsets.push(0);
        match tree {
            E::BitField(_, Some(typed)) => self.skip(&typed.1),
            E::Pointer(held) | E::Atomic(held) | E::Array(_, held) => self.skip(held),
            E::Struct(_, fields) | E::Union(_, fields) => fields.iter().for_each(|field| self.skip(field)),
            _ => {}
        }
    }
}

fn aligned(bytes: u64, alignment: u64) -> Extent {
    Extent { bytes: Some(bytes), alignment }
}

/// Alignments are powers of two.
fn round_up(end: u64, alignment: u64) -> Option<u64> {
    Some(end.checked_add(alignment - 1)? & !(alignment - 1))
}
