//! A safe wrapper around Berzhotun's static library: Objective-C type encodings.
//!
//! A call needs up to 512 KiB of stack for the deepest of texts.
//!
//! ```
//! use berzhotun::Row;
//!
//! let rate = berzhotun::parse(b"{Rate=id}").unwrap();
//! assert_eq!(rate.size(Row::AppleArm64), Ok(Some(12)));
//! assert!(rate.equivalent_to(&berzhotun::parse(b"{Rate}").unwrap()));
//! assert_eq!(rate.to_bytes(), b"{Rate=id}");
//!
//! let types = berzhotun::parse_signature(b"v24@0:8@16").unwrap();
//! assert_eq!((types[3].encoding, types[3].offset), (&b"@"[..], 16));
//!
//! assert!(berzhotun::parse(b"[007c]").is_ok() && berzhotun::parse_strict(b"[007c]").is_err());
//!
//! let reason = rate.reason(&berzhotun::parse(b"{Rate=if}").unwrap()).unwrap();
//! assert_eq!(reason.as_bytes(), b"1:kind 2:11 2:10");
//! assert_eq!(reason.to_string(), "item 1 differs in kind: 11 and 10");
//!
//! let record = berzhotun::parse(b"{R=l^vD}").unwrap();
//! let sizes = Row::ALL.map(|row| record.size(row));
//! assert_eq!(sizes, [Ok(Some(24)), Ok(Some(32)), Ok(Some(16)), Ok(Some(20))]);
//!
//! let layout = rate.layout(Row::AppleArm64).unwrap().unwrap();
//! assert_eq!((layout.bytes, layout.alignment), (16, 8));
//! assert_eq!((layout.field(0), layout.field(1)), (Some(0), Some(8)));
//! ```

mod exported;
mod layout;
mod reason;
mod refusal;
mod row;
#[cfg(test)]
mod trees;

pub use layout::Layout;
pub use reason::{Difference, Reason};
pub use refusal::{Container, Refusal};
pub use row::Row;

/// The most bytes of a text.
pub const MAX_TEXT: usize = 2000;

/// The most bytes of a reason.
pub const MAX_REASON: usize = 8016;

/// A type: a sheet that the library has accepted, so that only sizes, layouts and texts can be refused
/// later.
#[derive(Clone, Debug)]
pub struct Tree {
    words: Vec<u64>,
    names: Vec<u8>,
}

/// Reads the whole text as one type.
pub fn parse(text: &[u8]) -> Result<Tree, Refusal> {
    read(exported::berzhotun_from_str, text).map(|(tree, _)| tree)
}

/// Reads the whole text as one type, and takes only one spelling of each number: where [`parse`] reads
/// `[007c]` as it does `[7c]`, this refuses it, by [`Refusal::SurplusZero`].
pub fn parse_strict(text: &[u8]) -> Result<Tree, Refusal> {
    read(exported::berzhotun_from_str_strict, text).map(|(tree, _)| tree)
}

/// Reads one type from the start of the text and returns it with the rest of the text.
///
/// A digit where a type must begin is eaten and gives the tree None: for a whole method signature ask
/// [`parse_signature`].
pub fn parse_start(text: &[u8]) -> Result<(Tree, &[u8]), Refusal> {
    read(exported::berzhotun_from_start_of_str, text).map(|(tree, place)| (tree, &text[place..]))
}

type Reader =
    unsafe extern "C" fn(*const u8, usize, *mut u64, usize, *mut u8, usize, *mut [u64; 3]) -> u64;

fn read(reader: Reader, text: &[u8]) -> Result<(Tree, usize), Refusal> {
    // A text that is too long is refused whatever is lent.
    let length = text.len().min(MAX_TEXT);
    let mut words = vec![0; 4 + 4 * (length + 1)];
    let mut names = vec![0; length];
    let mut values = [0; 3];
    // SAFETY: each pointer goes with its own list's length; the lists that are written are new.
    let number = unsafe {
        reader(
            text.as_ptr(),
            text.len(),
            words.as_mut_ptr(),
            words.len(),
            names.as_mut_ptr(),
            names.len(),
            &mut values,
        )
    };
    if number != 0 {
        return Err(Refusal::new(number, values));
    }
    words.truncate(words[3] as usize);
    names.truncate(words[2] as usize);
    Ok((Tree { words, names }, values[0] as usize))
}

/// A type of a method's signature.
#[derive(Clone, Copy, Debug, PartialEq, Eq)]
pub struct Entry<'a> {
    /// Where it begins in the signature.
    pub start: usize,
    /// Its bytes with its qualifiers, in the caller's own text. [`parse`] reads them.
    pub encoding: &'a [u8],
    /// The number behind it: its place in the call's frame, or for the result the frame's size.
    pub offset: u32,
}

/// Reads a whole method signature, as `v24@0:8@16`: its types in their order, the result first.
///
/// A digit where a type must begin is refused, by [`Refusal::Unknown`] at its own place.
pub fn parse_signature(text: &[u8]) -> Result<Vec<Entry<'_>>, Refusal> {
    // A text that is too long is refused whatever is lent.
    let mut list = vec![0; 3 * (text.len().min(MAX_TEXT) / 2)];
    let mut values = [0; 3];
    // SAFETY: each pointer goes with its own list's length; the list that is written is new.
    let number = unsafe {
        exported::berzhotun_signature(
            text.as_ptr(),
            text.len(),
            list.as_mut_ptr(),
            list.len(),
            &mut values,
        )
    };
    if number != 0 {
        return Err(Refusal::new(number, values));
    }
    let entries = list.chunks_exact(3).take(values[0] as usize);
    Ok(entries.map(|entry| Entry::new(text, entry)).collect())
}

impl<'a> Entry<'a> {
    /// From the three numbers that the library has for it.
    fn new(text: &'a [u8], numbers: &[u64]) -> Entry<'a> {
        let start = numbers[0] as usize;
        let end = start + numbers[1] as usize;
        Entry {
            start,
            encoding: &text[start..end],
            offset: u32::try_from(numbers[2]).expect("a larger number is refused"),
        }
    }
}

/// A function of two trees with so many numbers as its answer.
type Pair<const N: usize> = unsafe extern "C" fn(
    *const u64,
    usize,
    *const u8,
    usize,
    *const u64,
    usize,
    *const u8,
    usize,
    *mut [u64; N],
) -> u64;

/// One that also writes into an output.
type Written = unsafe extern "C" fn(
    *const u64,
    usize,
    *const u8,
    usize,
    *const u64,
    usize,
    *const u8,
    usize,
    *mut u8,
    usize,
    *mut [u64; 2],
) -> u64;

impl Tree {
    /// The tree of a sheet that was made elsewhere; refusals 3 and 4.
    pub fn from_sheet(words: Vec<u64>, names: Vec<u8>) -> Result<Tree, Refusal> {
        let tree = Tree { words, names };
        tree.printed_length().map(|_| tree)
    }

    /// The words of the sheet, laid out as in include/berzhotun.h.
    pub fn words(&self) -> &[u64] {
        &self.words
    }

    /// The name bytes of the sheet.
    pub fn names(&self) -> &[u8] {
        &self.names
    }

    /// Whether the two are equivalent, by levels. This is not transitive.
    pub fn equivalent_to(&self, other: &Tree) -> bool {
        self.compare(exported::berzhotun_equivalent_to, other) == [1]
    }

    /// The same: in the Rust crate the other tree is then boxed, and here both are sheets.
    pub fn equivalent_to_box(&self, other: &Tree) -> bool {
        self.compare(exported::berzhotun_equivalent_to_box, other) == [1]
    }

    /// Whether the two are equivalent with all fields, also those behind several pointers.
    pub fn equal(&self, other: &Tree) -> bool {
        self.compare(exported::berzhotun_eq, other) == [1]
    }

    /// Why [`Tree::equivalent_to`] says no: the first difference, by levels. A yes has none.
    pub fn reason(&self, other: &Tree) -> Option<Reason> {
        let length = self.compare(exported::berzhotun_reason_len, other);
        self.explain(length, exported::berzhotun_reason, other)
    }

    /// Why [`Tree::equal`] says no: the first difference with all fields. A yes has none.
    pub fn reason_all(&self, other: &Tree) -> Option<Reason> {
        let length = self.compare(exported::berzhotun_reason_all_len, other);
        self.explain(length, exported::berzhotun_reason_all, other)
    }

    fn compare<const N: usize>(&self, pair: Pair<N>, other: &Tree) -> [u64; N] {
        let mut answer = [0; N];
        // SAFETY: each pointer goes with its own list's length, and only the answer is written.
        let number = unsafe {
            pair(
                self.words.as_ptr(),
                self.words.len(),
                self.names.as_ptr(),
                self.names.len(),
                other.words.as_ptr(),
                other.words.len(),
                other.names.as_ptr(),
                other.names.len(),
                &mut answer,
            )
        };
        assert_eq!(number, 0, "a tree is a good sheet");
        answer
    }

    /// From a yes, or the count of bytes that the reason for a no has.
    fn explain(&self, [yes, length]: [u64; 2], call: Written, other: &Tree) -> Option<Reason> {
        if yes == 1 {
            return None;
        }
        let mut out = vec![0; length as usize];
        let mut answer = [0; 2];
        // SAFETY: as in `compare`; the output is new.
        let number = unsafe {
            call(
                self.words.as_ptr(),
                self.words.len(),
                self.names.as_ptr(),
                self.names.len(),
                other.words.as_ptr(),
                other.words.len(),
                other.names.as_ptr(),
                other.names.len(),
                out.as_mut_ptr(),
                out.len(),
                &mut answer,
            )
        };
        assert_eq!(
            (number, answer),
            (0, [0, length]),
            "the output has the reason's length"
        );
        Some(Reason::new(out))
    }

    /// Whether the tree matches the text, by levels; only a text that is too long is refused.
    pub fn matches(&self, text: &[u8]) -> Result<bool, Refusal> {
        let mut answer = [0];
        // SAFETY: as in `compare`.
        let number = unsafe {
            exported::berzhotun_equivalent_to_str(
                self.words.as_ptr(),
                self.words.len(),
                self.names.as_ptr(),
                self.names.len(),
                text.as_ptr(),
                text.len(),
                &mut answer,
            )
        };
        accepted(number, answer[0] == 1)
    }

    /// The bytes that the type takes with the row's widths and without padding, if it has a size; for
    /// those in memory ask [`Tree::layout`].
    pub fn size(&self, row: Row) -> Result<Option<u64>, Refusal> {
        let mut answer = [0; 2];
        // SAFETY: as in `compare`.
        let number = unsafe {
            exported::berzhotun_size(
                self.words.as_ptr(),
                self.words.len(),
                self.names.as_ptr(),
                self.names.len(),
                row.number(),
                &mut answer,
            )
        };
        accepted(number, (answer[0] == 1).then_some(answer[1]))
    }

    /// The printed text.
    pub fn to_bytes(&self) -> Vec<u8> {
        let length = self.printed_length().expect("a tree is a good sheet");
        let mut out = vec![0; length];
        let mut answer = [0];
        // SAFETY: as in `compare`; the output is new.
        let number = unsafe {
            exported::berzhotun_static_encoding_str_array(
                self.words.as_ptr(),
                self.words.len(),
                self.names.as_ptr(),
                self.names.len(),
                out.as_mut_ptr(),
                out.len(),
                &mut answer,
            )
        };
        assert_eq!(
            (number, answer[0] as usize),
            (0, length),
            "the output has the printed length"
        );
        out
    }

    fn printed_length(&self) -> Result<usize, Refusal> {
        let mut answer = [0];
        // SAFETY: as in `compare`.
        let number = unsafe {
            exported::berzhotun_static_encoding_str_len(
                self.words.as_ptr(),
                self.words.len(),
                self.names.as_ptr(),
                self.names.len(),
                &mut answer,
            )
        };
        accepted(number, answer[0] as usize)
    }
}

fn accepted<T>(number: u64, answer: T) -> Result<T, Refusal> {
    match number {
        0 => Ok(answer),
        _ => Err(Refusal::new(number, [0; 3])),
    }
}
