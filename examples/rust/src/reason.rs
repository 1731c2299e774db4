//! Why two trees are not equivalent.

use std::fmt;

/// The first difference of two trees, in the order in which they are compared.
#[derive(Clone, Debug, PartialEq, Eq, Hash)]
pub struct Reason {
    /// Item numbers from 0, down from the root: none for the root itself.
    pub path: Vec<usize>,
    /// What differs there.
    pub differs: Difference,
    bytes: Vec<u8>,
}

/// What differs, with the value of the first tree and that of the second.
#[derive(Clone, Debug, PartialEq, Eq, Hash)]
pub enum Difference {
    /// The kinds of the nodes, as in a sheet: 0 to 31.
    Kind { first: u8, second: u8 },
    /// The bits of two bitfields.
    Size { first: u8, second: u8 },
    /// The offsets of two bitfields with a type.
    Offset { first: u64, second: u64 },
    /// The lengths of two arrays.
    Length { first: u64, second: u64 },
    /// The names of two structs or unions.
    Name { first: String, second: String },
    /// How many fields two structs or unions have.
    Count { first: usize, second: usize },
}

impl Reason {
    /// From the library's bytes.
    pub(crate) fn new(bytes: Vec<u8>) -> Reason {
        let (path, differs) = parse(&bytes).expect("the library writes reasons so");
        Reason {
            path,
            differs,
            bytes,
        }
    }

    /// The reason as the library writes it. Two different reasons never have the same bytes.
    pub fn as_bytes(&self) -> &[u8] {
        &self.bytes
    }
}

/// The path, a colon, a word, and two values.
fn parse(bytes: &[u8]) -> Option<(Vec<usize>, Difference)> {
    let (path, rest) = split_at_byte(bytes, b':')?;
    let (word, _) = split_at_byte(rest, b' ')?;
    let (first, rest) = value(&rest[word.len()..])?;
    let (second, rest) = value(rest)?;
    if !rest.is_empty() {
        return None;
    }
    let path = match path {
        [] => Vec::new(),
        _ => path
            .split(|&byte| byte == b'.')
            .map(number)
            .collect::<Option<_>>()?,
    };
    Some((path, difference(word, first, second)?))
}

fn difference(word: &[u8], first: &[u8], second: &[u8]) -> Option<Difference> {
    Some(match word {
        b"kind" => Difference::Kind {
            first: number(first)?,
            second: number(second)?,
        },
        b"size" => Difference::Size {
            first: number(first)?,
            second: number(second)?,
        },
        b"offset" => Difference::Offset {
            first: number(first)?,
            second: number(second)?,
        },
        b"length" => Difference::Length {
            first: number(first)?,
            second: number(second)?,
        },
        b"name" => Difference::Name {
            first: text(first)?.to_string(),
            second: text(second)?.to_string(),
        },
        b"count" => Difference::Count {
            first: number(first)?,
            second: number(second)?,
        },
        _ => return None,
    })
}

/// A space, a length, a colon and so many bytes; and what is left.
fn value(bytes: &[u8]) -> Option<(&[u8], &[u8])> {
    let (length, rest) = split_at_byte(bytes.strip_prefix(b" ")?, b':')?;
    let length = number(length)?;
    (length <= rest.len()).then(|| rest.split_at(length))
}

/// What stands before the first such byte, and what behind it.
fn split_at_byte(bytes: &[u8], byte: u8) -> Option<(&[u8], &[u8])> {
    let at = bytes.iter().position(|&other| other == byte)?;
    Some((&bytes[..at], &bytes[at + 1..]))
}

fn number<T: std::str::FromStr>(digits: &[u8]) -> Option<T> {
    text(digits)?.parse().ok()
}

fn text(bytes: &[u8]) -> Option<&str> {
    std::str::from_utf8(bytes).ok()
}

impl fmt::Display for Reason {
    fn fmt(&self, f: &mut fmt::Formatter<'_>) -> fmt::Result {
        let path: Vec<String> = self.path.iter().map(usize::to_string).collect();
        match path[..] {
            [] => write!(f, "the trees differ in {}", self.differs),
            _ => write!(f, "item {} differs in {}", path.join("."), self.differs),
        }
    }
}

impl fmt::Display for Difference {
    fn fmt(&self, f: &mut fmt::Formatter<'_>) -> fmt::Result {
        match self {
            Difference::Kind { first, second } => write!(f, "kind: {first} and {second}"),
            Difference::Size { first, second } => write!(f, "size: {first} and {second}"),
            Difference::Offset { first, second } => write!(f, "offset: {first} and {second}"),
            Difference::Length { first, second } => write!(f, "length: {first} and {second}"),
            Difference::Name { first, second } => write!(f, "name: {first} and {second}"),
            Difference::Count { first, second } => write!(f, "count: {first} and {second}"),
        }
    }
}

/// What the wrapper never asks: lists that are no trees, and outputs that are too short.
#[cfg(test)]
mod tests {
    use crate::exported::*;
    use crate::trees::{bad_name, no_sheet, tree};
    use crate::{Tree, Written};

    const BOTH: [Written; 2] = [berzhotun_reason, berzhotun_reason_all];

    /// The returned number, the answer, and the output of `room` bytes with four more.
    fn ask(call: Written, a: &Tree, b: &Tree, room: usize) -> (u64, [u64; 2], Vec<u8>) {
        let mut out = vec![b'-'; room + 4];
        let mut answer = [7; 2];
        // SAFETY: each pointer goes with its own list's length; the lists that are written are new.
        let number = unsafe {
            call(
                a.words.as_ptr(),
                a.words.len(),
                a.names.as_ptr(),
                a.names.len(),
                b.words.as_ptr(),
                b.words.len(),
                b.names.as_ptr(),
                b.names.len(),
                out.as_mut_ptr(),
                room,
                &mut answer,
            )
        };
        (number, answer, out)
    }

    #[test]
    fn an_output_that_is_too_short_stays_as_it_was() {
        let reason = b":kind 1:2 2:11";
        for call in BOTH {
            for room in 0..20 {
                let mut wanted = vec![b'-'; room + 4];
                let (number, answer) = if room < reason.len() {
                    (5, [0, 0])
                } else {
                    wanted[..reason.len()].copy_from_slice(reason);
                    (0, [0, reason.len() as u64])
                };
                let got = ask(call, &tree("i"), &tree("d"), room);
                assert_eq!(got, (number, answer, wanted));
            }
        }
    }

    #[test]
    fn a_yes_needs_no_output() {
        for call in BOTH {
            for room in [0, 20] {
                let got = ask(call, &tree("{R=i}"), &tree("{R}"), room);
                assert_eq!(got, (0, [1, 0], vec![b'-'; room + 4]));
            }
        }
    }

    #[test]
    fn what_is_no_sheet_goes_before_a_bad_name_and_that_before_a_short_output() {
        let (good, no_sheet, bad_name) = (tree("i"), no_sheet(), bad_name());
        let cases = [
            (&no_sheet, &good, 3),
            (&good, &no_sheet, 3),
            (&bad_name, &no_sheet, 3),
            (&no_sheet, &bad_name, 3),
            (&bad_name, &good, 4),
            (&good, &bad_name, 4),
            (&bad_name, &bad_name, 4),
        ];
        for (a, b, number) in cases {
            for call in BOTH {
                for room in [0, 100] {
                    assert_eq!(
                        ask(call, a, b, room),
                        (number, [0, 0], vec![b'-'; room + 4])
                    );
                }
            }
            for length in [berzhotun_reason_len, berzhotun_reason_all_len] {
                let mut answer = [7; 2];
                // SAFETY: as above.
                let returned = unsafe {
                    length(
                        a.words.as_ptr(),
                        a.words.len(),
                        a.names.as_ptr(),
                        a.names.len(),
                        b.words.as_ptr(),
                        b.words.len(),
                        b.names.as_ptr(),
                        b.names.len(),
                        &mut answer,
                    )
                };
                assert_eq!((returned, answer), (number, [0, 0]));
            }
        }
    }
}
