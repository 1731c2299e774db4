//! Questions to the crate, through its own functions, with answers in document 01's terms.

use std::str::FromStr;

use crate::helper::NestingLevel;
use crate::parse::Parser;
use crate::rows::{self, Answer, Measured};
use crate::sheet::{STRUCT, UNION};
use crate::static_str::{static_encoding_str_array, static_encoding_str_len};
use crate::surplus;
use crate::trees::{Arena, Tree};
use crate::{Encoding, EncodingBox, ParseError};

/// A refused text: document 01's number, and the values that it carries (0 where it has none).
#[derive(Clone, Copy, Debug, PartialEq)]
pub struct Refusal {
    pub number: u64,
    pub place: u64,
    pub byte: u64,
    pub kind: u64,
}

/// Whole-text reading.
pub fn read(text: &str) -> Result<EncodingBox, Refusal> {
    EncodingBox::from_str(text).map_err(|error| refusal(&error))
}

/// Strict whole-text reading as request N3 has it: the crate's reading, unless that meets a number with
/// a surplus zero.
pub fn read_strict(text: &str) -> Result<EncodingBox, Refusal> {
    let answer = read(text);
    match surplus_zero(text, &answer) {
        Some(refusal) => Err(refusal),
        None => answer,
    }
}

/// Refusal 19, if the crate's reading of the text, which answered so, met such a number.
pub fn surplus_zero(text: &str, answer: &Result<EncodingBox, Refusal>) -> Option<Refusal> {
    let end = answer.as_ref().map_or_else(|refusal| refusal.place as usize, |_| text.len());
    surplus::by_walk(text.as_bytes(), end).map(|place| placed(19, place))
}

/// Reading from the start: the tree, and the place where the rest begins.
pub fn read_start(text: &str) -> Result<(EncodingBox, usize), Refusal> {
    let mut rest = text;
    match EncodingBox::from_start_of_str(&mut rest) {
        Ok(tree) => Ok((tree, text.len() - rest.len())),
        Err(error) => {
            assert_eq!(rest, text, "a refusal leaves the rest equal to the text");
            Err(refusal(&error))
        }
    }
}

/// A type of a signature: where it begins and how many bytes it has, both with its qualifiers, and
/// the number behind it.
#[derive(Clone, Copy, Debug, PartialEq)]
pub struct Entry {
    pub start: u64,
    pub length: u64,
    pub number: u64,
}

/// A whole signature as request N1 has it: each type is read by the crate's parser, the numbers
/// between them here.
pub fn signature(text: &str) -> Result<Vec<Entry>, Refusal> {
    if text.is_empty() {
        return Err(placed(18, 0));
    }
    let mut entries = Vec::new();
    let mut start = 0;
    while start < text.len() {
        let length = type_length(&text[start..]).map_err(|refusal| in_signature(refusal, start))?;
        let behind = &text[start + length..];
        let digits = behind.bytes().take_while(u8::is_ascii_digit).count();
        if digits == 0 {
            return Err(placed(16, start + length));
        }
        let end = start + length + digits;
        let number: u32 = behind[..digits].parse().map_err(|_| placed(17, end))?;
        entries.push(Entry { start: start as u64, length: length as u64, number: number.into() });
        start = end;
    }
    Ok(entries)
}

/// How many bytes the type at the start of the text has, as reading from the start reads it, but
/// that a digit where a type should begin is refused.
fn type_length(text: &str) -> Result<usize, Refusal> {
    let mut parser = Parser::new(text);
    parser.strip_leading_qualifiers();
    match parser.parse_encoding_or_none() {
        Ok(_) => Ok(text.len() - parser.remaining().len()),
        Err(kind) => Err(refusal(&ParseError::new(parser, kind))),
    }
}

/// Places count from the signature's first byte. The crate is behind the byte that it does not know;
/// for a digit the request wants the digit's own place.
fn in_signature(refusal: Refusal, start: usize) -> Refusal {
    let is_digit = (u64::from(b'0')..=u64::from(b'9')).contains(&refusal.byte);
    let back = u64::from(refusal.number == 8 && is_digit);
    Refusal { place: start as u64 + refusal.place - back, ..refusal }
}

fn placed(number: u64, place: usize) -> Refusal {
    Refusal { number, place: place as u64, byte: 0, kind: 0 }
}

/// The error's fields are private; its Debug text shows them:
/// `ParseError { kind: Unknown(120), data: "x", split_point: 1 }`.
fn refusal(error: &ParseError) -> Refusal {
    let shown = format!("{error:?}");
    let kind = between(&shown, "kind: ", ", data: ");
    let place = &shown[shown.rfind("split_point: ").unwrap() + 13..];
    let place = place.trim_end_matches(" }").parse().unwrap();
    let (name, value) = kind.split_once('(').unwrap_or((kind, ""));
    let number = match name {
        "UnexpectedEnd" => 7,
        "Unknown" => 8,
        "UnknownAfterComplex" => 9,
        "ExpectedInteger" => 10,
        "IntegerTooLarge" => 11,
        "WrongEndArray" => 12,
        "WrongEndContainer" => 13,
        "InvalidIdentifier" => 14,
        "NotAllConsumed" => 15,
        other => unreachable!("an unknown error {other}"),
    };
    let (byte, kind) = match value.trim_end_matches(')') {
        "" => (0, 0),
        "Struct" => (0, STRUCT),
        "Union" => (0, UNION),
        byte => (byte.parse().unwrap(), 0),
    };
    Refusal { number, place, byte, kind }
}

fn between<'a>(text: &'a str, before: &str, after: &str) -> &'a str {
    let start = text.find(before).unwrap() + before.len();
    let end = start + text[start..].find(after).unwrap();
    &text[start..end]
}

/// `==` between the crate's two tree types, both ways round.
pub fn equal(a: &Encoding, a_box: &EncodingBox, b: &Encoding, b_box: &EncodingBox) -> (bool, bool) {
    (a == b_box, a_box == b)
}

pub fn printed_length(tree: &Encoding) -> usize {
    static_encoding_str_len(tree, NestingLevel::new())
}

/// Display's text. It is only asked where printing into an array would take too long.
pub fn displayed(tree: &Encoding) -> Vec<u8> {
    tree.to_string().into_bytes()
}

/// The printed text by `static_encoding_str_array`, if it can be had for at most `most` steps.
pub fn printed(tree: &Encoding, shape: &Tree, most: u64) -> Option<Vec<u8>> {
    let length = printed_length(tree);
    let room = [64, 512, 4096, 65536].into_iter().find(|&room| length <= room)?;
    if steps(shape, length as u64, room as u64) > most {
        return None;
    }
    Some(match room {
        64 => array_text::<64>(tree, length),
        512 => array_text::<512>(tree, length),
        4096 => array_text::<4096>(tree, length),
        _ => array_text::<65536>(tree, length),
    })
}

/// About what the crate spends: an array for each node, and at each nesting a copy of the text
/// inside, with its length counted anew for every byte.
fn steps(shape: &Tree, length: u64, room: u64) -> u64 {
    let nodes = shape.nodes.len() as u64;
    nodes * room + nesting(shape) * length * nodes
}

/// How many nodes are open at once at most.
fn nesting(shape: &Tree) -> u64 {
    let mut ends: Vec<usize> = Vec::new();
    let mut deepest = 0;
    for (at, node) in shape.nodes.iter().enumerate() {
        while ends.last().is_some_and(|&end| end <= at) {
            ends.pop();
        }
        ends.push(at + node.count as usize);
        deepest = deepest.max(ends.len() as u64);
    }
    deepest
}

#[inline(never)]
fn array_text<const LEN: usize>(tree: &Encoding, length: usize) -> Vec<u8> {
    let array = static_encoding_str_array::<LEN>(tree, NestingLevel::new());
    assert!(array[length..].iter().all(|&b| b == 0), "bytes beyond the printed length");
    array[..length].to_vec()
}

/// The crate's size on document 01's target, if the question is within the domain.
pub fn size(arena: &mut Arena, tree: &Tree) -> Option<Option<u128>> {
    size_in(arena, tree, 0, &rows::measure(tree, 0))
}

/// The crate's size in a row, if that can be had here and every sum and product is below 2^64.
pub fn size_in(arena: &mut Arena, tree: &Tree, row: usize, measured: &Measured) -> Option<Option<u128>> {
    let is_here = row != 1 || Encoding::LongDouble.size() == Some(16);
    (is_here && measured.fits()).then(|| arena.encoding_in_row(tree, row).size().map(|bytes| bytes as u128))
}

/// What size answers in a row: by the crate where it can be asked, else by requests N5 and N6.
pub fn sized(arena: &mut Arena, tree: &Tree, row: u64) -> Answer {
    if row >= rows::ROWS as u64 {
        return Answer::Refused(rows::NO_SUCH_ROW);
    }
    let row = row as usize;
    let measured = rows::measure(tree, row);
    rows::handed_out(size_in(arena, tree, row, &measured).unwrap_or(measured.bytes), row)
}
