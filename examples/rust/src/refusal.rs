//! Why an input was turned away.

use std::error::Error;
use std::fmt;

/// What encloses fields.
#[derive(Clone, Copy, Debug, PartialEq, Eq, Hash)]
pub enum Container {
    Struct,
    Union,
}

/// The refusals of the library, with what each carries. A place is a byte index into the text.
#[derive(Clone, Copy, Debug, PartialEq, Eq, Hash)]
pub enum Refusal {
    /// 1: the text has more than 2,000 bytes.
    TextTooLong,
    /// 2: a lent list is shorter than reading needs, or than a layout's count of nodes. This crate
    /// always lends enough.
    ListTooShort,
    /// 3: the lists are no sheet.
    BadSheet,
    /// 4: a struct or union has a name that is none.
    BadName,
    /// 5: the output is shorter than the printed length, or than the reason for a no. This crate
    /// always lends enough.
    OutputTooShort,
    /// 6: the size, or in a layout an offset, is above 2^64 - 1, or on 32-bit ARM above 2^32 - 1.
    SizeTooLarge,
    /// 7: a needed byte is missing at the text's end.
    UnexpectedEnd { place: usize },
    /// 8: no type starts with the byte right before the place, or it closes what is not open. In a
    /// signature a digit stands at the place itself.
    Unknown { place: usize, byte: u8 },
    /// 9: the byte at the place stands after `j` and makes no complex number.
    UnknownAfterComplex { place: usize, byte: u8 },
    /// 10: the byte at the place is no digit.
    ExpectedInteger { place: usize },
    /// 11: the number right before the place is too large.
    IntegerTooLarge { place: usize },
    /// 12: no item, or no `]` after it.
    WrongEndArray { place: usize },
    /// 13: the text ends inside.
    WrongEndContainer { place: usize, container: Container },
    /// 14: the name that ends at the place is none.
    InvalidIdentifier { place: usize, container: Container },
    /// 15: bytes remain after the type.
    NotAllConsumed { place: usize },
    /// 16: in a signature no number stands at the place, behind a type.
    ExpectedOffset { place: usize },
    /// 17: in a signature the number right before the place is above 4,294,967,295.
    OffsetTooLarge { place: usize },
    /// 18: the signature has no byte.
    EmptySignature,
    /// 19: in a strict reading the number that begins at the place has more than one digit and
    /// starts with 0.
    SurplusZero { place: usize },
    /// 20: no row of sizes has this number. This crate has a [`Row`](crate::Row) only for those that
    /// there are.
    NoSuchRow,
    /// 21: a bitfield is to be laid out: the node of that number, the lowest of them.
    BitFieldInLayout { node: usize },
}

impl Refusal {
    /// From the returned number and the three values: place (or node), byte, kind.
    pub(crate) fn new(number: u64, values: [u64; 3]) -> Refusal {
        let place = values[0] as usize;
        let byte = values[1] as u8;
        let container = if values[2] == 29 {
            Container::Struct
        } else {
            Container::Union
        };
        match number {
            1 => Refusal::TextTooLong,
            2 => Refusal::ListTooShort,
            3 => Refusal::BadSheet,
            4 => Refusal::BadName,
            5 => Refusal::OutputTooShort,
            6 => Refusal::SizeTooLarge,
            7 => Refusal::UnexpectedEnd { place },
            8 => Refusal::Unknown { place, byte },
            9 => Refusal::UnknownAfterComplex { place, byte },
            10 => Refusal::ExpectedInteger { place },
            11 => Refusal::IntegerTooLarge { place },
            12 => Refusal::WrongEndArray { place },
            13 => Refusal::WrongEndContainer { place, container },
            14 => Refusal::InvalidIdentifier { place, container },
            15 => Refusal::NotAllConsumed { place },
            16 => Refusal::ExpectedOffset { place },
            17 => Refusal::OffsetTooLarge { place },
            18 => Refusal::EmptySignature,
            19 => Refusal::SurplusZero { place },
            20 => Refusal::NoSuchRow,
            21 => Refusal::BitFieldInLayout { node: place },
            _ => unreachable!("the library has no refusal {number}"),
        }
    }

    /// The number that the library has for it.
    pub fn number(self) -> u64 {
        match self {
            Refusal::TextTooLong => 1,
            Refusal::ListTooShort => 2,
            Refusal::BadSheet => 3,
            Refusal::BadName => 4,
            Refusal::OutputTooShort => 5,
            Refusal::SizeTooLarge => 6,
            Refusal::UnexpectedEnd { .. } => 7,
            Refusal::Unknown { .. } => 8,
            Refusal::UnknownAfterComplex { .. } => 9,
            Refusal::ExpectedInteger { .. } => 10,
            Refusal::IntegerTooLarge { .. } => 11,
            Refusal::WrongEndArray { .. } => 12,
            Refusal::WrongEndContainer { .. } => 13,
            Refusal::InvalidIdentifier { .. } => 14,
            Refusal::NotAllConsumed { .. } => 15,
            Refusal::ExpectedOffset { .. } => 16,
            Refusal::OffsetTooLarge { .. } => 17,
            Refusal::EmptySignature => 18,
            Refusal::SurplusZero { .. } => 19,
            Refusal::NoSuchRow => 20,
            Refusal::BitFieldInLayout { .. } => 21,
        }
    }
}

impl fmt::Display for Container {
    fn fmt(&self, f: &mut fmt::Formatter<'_>) -> fmt::Result {
        f.write_str(match self {
            Container::Struct => "struct",
            Container::Union => "union",
        })
    }
}

impl Refusal {
    /// The words of those that reading a type meets; the others are named, so that none is forgotten.
    fn fmt_type(&self, f: &mut fmt::Formatter<'_>) -> fmt::Result {
        match *self {
            Refusal::UnexpectedEnd { place } => write!(f, "something is missing at {place}"),
            Refusal::Unknown { place, byte } => {
                write!(
                    f,
                    "`{}` is out of place, reading stops at {place}",
                    byte.escape_ascii()
                )
            }
            Refusal::UnknownAfterComplex { place, byte } => {
                write!(
                    f,
                    "`{}` at {place} makes no complex number",
                    byte.escape_ascii()
                )
            }
            Refusal::ExpectedInteger { place } => write!(f, "a number must stand at {place}"),
            Refusal::IntegerTooLarge { place } => {
                write!(f, "the number before {place} is too large")
            }
            Refusal::WrongEndArray { place } => {
                write!(f, "the array must go on or close at {place}")
            }
            Refusal::WrongEndContainer { place, container } => {
                write!(f, "the {container} is not closed at {place}")
            }
            Refusal::InvalidIdentifier { place, container } => {
                write!(f, "before {place} stands no name of a {container}")
            }
            Refusal::NotAllConsumed { place } => {
                write!(f, "the type ends at {place}, the text does not")
            }
            Refusal::SurplusZero { place } => {
                write!(f, "the number at {place} has a zero too many in front")
            }
            Refusal::TextTooLong
            | Refusal::ListTooShort
            | Refusal::BadSheet
            | Refusal::BadName
            | Refusal::OutputTooShort
            | Refusal::SizeTooLarge
            | Refusal::ExpectedOffset { .. }
            | Refusal::OffsetTooLarge { .. }
            | Refusal::EmptySignature
            | Refusal::NoSuchRow
            | Refusal::BitFieldInLayout { .. } => Ok(()),
        }
    }
}

impl fmt::Display for Refusal {
    fn fmt(&self, f: &mut fmt::Formatter<'_>) -> fmt::Result {
        match *self {
            Refusal::TextTooLong => write!(f, "the text has more than 2,000 bytes"),
            Refusal::ListTooShort => write!(f, "a lent list is too short"),
            Refusal::BadSheet => write!(f, "the lists are no sheet"),
            Refusal::BadName => write!(f, "a struct or union has a name that is none"),
            Refusal::OutputTooShort => write!(f, "the output is too short"),
            Refusal::SizeTooLarge => {
                write!(
                    f,
                    "the size or an offset is above 2^64 - 1, or on 32-bit ARM 2^32 - 1"
                )
            }
            Refusal::ExpectedOffset { place } => {
                write!(f, "a number must follow the type at {place}")
            }
            Refusal::OffsetTooLarge { place } => {
                write!(f, "the number before {place} is above 4,294,967,295")
            }
            Refusal::EmptySignature => write!(f, "the signature has no byte"),
            Refusal::NoSuchRow => write!(f, "there is no such row of sizes"),
            Refusal::BitFieldInLayout { node } => {
                write!(f, "node {node} is a bitfield and cannot be laid out")
            }
            _ => self.fmt_type(f),
        }
    }
}

impl Error for Refusal {}
