//! The oracle: answers one case a line from standard input, one line each on standard output.
//!
//! A line is a question and its arguments, with single spaces between. An argument is
//!
//!     t:HEX          a text, its bytes in hex (`t:` is the empty text)
//!     s:WORDS:HEX    a sheet: words in decimal with commas between, name bytes in hex
//!
//! and a TREE is either a text, which is read first (whole-text reading), or a sheet.
//!
//!     question                     answer
//!     read TEXT                    ok SHEET | no NUMBER PLACE BYTE KIND
//!     read-strict TEXT             ok SHEET | no NUMBER PLACE BYTE KIND
//!     start TEXT                   ok SHEET PLACE | no NUMBER PLACE BYTE KIND
//!     signature TEXT               ok and, for each type, START,LENGTH,NUMBER after a space | no ...
//!     equivalent TREE TREE         yes | no                  (equivalent_to)
//!     equivalent-box TREE TREE     yes | no                  (equivalent_to_box)
//!     equal TREE TREE              two of yes | no           (==: Encoding with box, box with Encoding)
//!     reason TREE TREE             yes | no HEX              (request N4, by levels)
//!     reason-all TREE TREE         yes | no HEX              (the same with all fields)
//!     text TREE TEXT               yes | no                  (equivalent_to_str)
//!     size TREE                    bytes N | none | outside  (document 01's target)
//!     size-in ROW TREE             bytes N | none | no NUMBER 0 0 0  (requests N5 and N6, by its row number)
//!     layout ROW TREE              ok BYTES ALIGNMENT N,N,... | none | no NUMBER PLACE 0 0  (request N7)
//!     size-host TREE               bytes N | none            (as the crate answers on this machine)
//!     length TREE                  N                         (static_encoding_str_len)
//!     print TREE                   t:HEX                     (static_encoding_str_array)
//!
//! NUMBER is the refusal of document 01, or of request N1, N3, N5 or N7; PLACE (for 21 a node's number), BYTE
//! and KIND (29 struct, 30 union) are 0 where it carries none. PLACE after `ok` is where the rest begins. HEX
//! after `no` is the reason's bytes. A sheet in an answer has the words and name bytes that are used and no more.
//! Other answers to any question:
//!
//!     unread NUMBER PLACE BYTE KIND    a text given as a tree could not be read
//!     panic                            the crate panicked (a bad name that it came to)
//!     bad sheet | bad utf8 | bad line  the question is not one for the crate (`size-in` and `layout`: no 3 for a
//!                                      bad sheet)

use std::fmt::Write as _;
use std::io::{BufRead, BufReader, BufWriter, Write};
use std::panic::{catch_unwind, set_hook, AssertUnwindSafe};

use crate::ask::{self, Refusal};
use crate::layout;
use crate::reason::Finder;
use crate::rows::Answer;
use crate::sheet::{is_container, names_are_good, BAD_LAYOUT, BAD_NAME};
use crate::trees::{Arena, Tree};
use crate::EncodingBox;

/// Above this many steps printing into an array takes seconds; Display's text stands in.
const MOST_STEPS: u64 = 200_000_000;

/// The answer for words and name bytes that are no sheet, except that sizes by rows and layouts have a refusal for it.
const BAD_SHEET: &str = "bad sheet";

pub fn run() -> i32 {
    set_hook(Box::new(|_| {}));
    let mut input = BufReader::new(std::io::stdin());
    let mut output = BufWriter::new(std::io::stdout());
    let mut line = String::new();
    loop {
        line.clear();
        match input.read_line(&mut line) {
            Ok(0) => break,
            Ok(_) => {}
            Err(_) => return 2,
        }
        if writeln!(output, "{}", answer(line.trim_end_matches(['\n', '\r']))).is_err() {
            return 2;
        }
        // One who asks and waits gets the answer now; a long list is not slowed down.
        if input.buffer().is_empty() && output.flush().is_err() {
            return 2;
        }
    }
    i32::from(output.flush().is_err()) * 2
}

fn answer(line: &str) -> String {
    let asked = catch_unwind(AssertUnwindSafe(|| ask(line)));
    match asked {
        Ok(Ok(answer) | Err(answer)) => answer,
        Err(_) => "panic".to_string(),
    }
}

/// Both sides are answer lines; the second are those that end the work early.
fn ask(line: &str) -> Result<String, String> {
    let mut parts = line.split(' ');
    let question = parts.next().unwrap_or("");
    let arguments: Vec<&str> = parts.collect();
    match (question, &arguments[..]) {
        ("read", [text]) => Ok(read(ask::read(&text_of(text)?))),
        ("read-strict", [text]) => Ok(read(ask::read_strict(&text_of(text)?))),
        ("start", [text]) => Ok(start(&text_of(text)?)),
        ("signature", [text]) => Ok(signature(&text_of(text)?)),
        ("equivalent", [a, b]) => Ok(equivalent(&tree_of(a)?, &tree_of(b)?)),
        ("equivalent-box", [a, b]) => Ok(equivalent_box(&tree_of(a)?, &tree_of(b)?)),
        ("equal", [a, b]) => Ok(equal(&tree_of(a)?, &tree_of(b)?)),
        ("reason", [a, b]) => Ok(reason(&tree_of(a)?, &tree_of(b)?, false)),
        ("reason-all", [a, b]) => Ok(reason(&tree_of(a)?, &tree_of(b)?, true)),
        ("text", [tree, text]) => Ok(against_text(&tree_of(tree)?, &text_of(text)?)),
        ("size", [tree]) => Ok(size(&tree_of(tree)?)),
        ("size-in", [row, tree]) => size_in(tree_of(tree), row.parse().map_err(|_| bad_line())?),
        ("layout", [row, tree]) => layout_in(tree_of(tree), row.parse().map_err(|_| bad_line())?),
        ("size-host", [tree]) => Ok(size_here(&tree_of(tree)?)),
        ("length", [tree]) => Ok(length(&tree_of(tree)?)),
        ("print", [tree]) => Ok(print(&tree_of(tree)?)),
        _ => Err(bad_line()),
    }
}

fn read(answer: Result<EncodingBox, Refusal>) -> String {
    match answer {
        Ok(tree) => format!("ok {}", sheet_text(&Tree::from_box(&tree))),
        Err(refusal) => format!("no {}", refusal_text(&refusal)),
    }
}

fn start(text: &str) -> String {
    match ask::read_start(text) {
        Ok((tree, place)) => format!("ok {} {place}", sheet_text(&Tree::from_box(&tree))),
        Err(refusal) => format!("no {}", refusal_text(&refusal)),
    }
}

fn signature(text: &str) -> String {
    match ask::signature(text) {
        Ok(entries) => entries.iter().fold("ok".to_string(), |mut answer, entry| {
            write!(answer, " {},{},{}", entry.start, entry.length, entry.number).unwrap();
            answer
        }),
        Err(refusal) => format!("no {}", refusal_text(&refusal)),
    }
}

fn equivalent(a: &Tree, b: &Tree) -> String {
    let (mut first, mut second) = (Arena::default(), Arena::default());
    yes_no(first.encoding(a).equivalent_to(second.encoding(b)))
}

fn equivalent_box(a: &Tree, b: &Tree) -> String {
    yes_no(Arena::default().encoding(a).equivalent_to_box(&b.to_box()))
}

fn equal(a: &Tree, b: &Tree) -> String {
    let (mut first, mut second) = (Arena::default(), Arena::default());
    let answers = ask::equal(first.encoding(a), &a.to_box(), second.encoding(b), &b.to_box());
    format!("{} {}", yes_no(answers.0), yes_no(answers.1))
}

fn reason(a: &Tree, b: &Tree, include_all: bool) -> String {
    let (mut first, mut second) = (Arena::default(), Arena::default());
    match Finder::default().find(first.encoding(a), second.encoding(b), include_all) {
        Some(reason) => format!("no {}", hex_text(reason)),
        None => "yes".to_string(),
    }
}

fn against_text(tree: &Tree, text: &str) -> String {
    yes_no(Arena::default().encoding(tree).equivalent_to_str(text))
}

fn size(tree: &Tree) -> String {
    match ask::size(&mut Arena::default(), tree) {
        None => "outside".to_string(),
        Some(size) => size_text(size),
    }
}

fn size_in(tree: Result<Tree, String>, row: u64) -> Result<String, String> {
    let answer = match sheet_or_refusal(tree)? {
        Err(number) => Answer::Refused(number),
        Ok(tree) => ask::sized(&mut Arena::default(), &tree, row),
    };
    Ok(match answer {
        Answer::None => size_text(None),
        Answer::Bytes(bytes) => size_text(Some(bytes.into())),
        Answer::Refused(number) => format!("no {number} 0 0 0"),
    })
}

/// A sheet that is none goes before the row's number, and so does a bad name, also where the crate would not
/// come to it.
fn sheet_or_refusal(tree: Result<Tree, String>) -> Result<Result<Tree, u64>, String> {
    match tree {
        Err(why) if why == BAD_SHEET => Ok(Err(BAD_LAYOUT)),
        Err(why) => Err(why),
        Ok(tree) if !names_are_good(&tree.words(), &tree.names) => Ok(Err(BAD_NAME)),
        Ok(tree) => Ok(Ok(tree)),
    }
}

/// With a list of just the needed length.
fn layout_in(tree: Result<Tree, String>, row: u64) -> Result<String, String> {
    let answer = match sheet_or_refusal(tree)? {
        Err(number) => layout::Answer::Refused(number, 0),
        Ok(tree) => layout::answer(&tree, row, tree.nodes.len()),
    };
    Ok(match answer {
        layout::Answer::None => "none".to_string(),
        layout::Answer::Refused(number, node) => format!("no {number} {node} 0 0"),
        layout::Answer::Layout(layout) => {
            let offsets: Vec<String> = layout.offsets.iter().map(u64::to_string).collect();
            format!("ok {} {} {}", layout.bytes, layout.alignment, offsets.join(","))
        }
    })
}

fn size_here(tree: &Tree) -> String {
    size_text(Arena::default().encoding(tree).size().map(|bytes| bytes as u128))
}

fn size_text(size: Option<u128>) -> String {
    size.map_or("none".to_string(), |bytes| format!("bytes {bytes}"))
}

fn length(tree: &Tree) -> String {
    ask::printed_length(Arena::default().encoding(tree)).to_string()
}

fn print(tree: &Tree) -> String {
    let mut arena = Arena::default();
    let made = arena.encoding(tree);
    let text = ask::printed(made, tree, MOST_STEPS).unwrap_or_else(|| ask::displayed(made));
    format!("t:{}", hex_text(&text))
}

fn yes_no(answer: bool) -> String {
    if answer { "yes" } else { "no" }.to_string()
}

fn refusal_text(refusal: &Refusal) -> String {
    format!("{} {} {} {}", refusal.number, refusal.place, refusal.byte, refusal.kind)
}

fn sheet_text(tree: &Tree) -> String {
    let words: Vec<String> = tree.words().iter().map(u64::to_string).collect();
    format!("s:{}:{}", words.join(","), hex_text(&tree.names))
}

fn hex_text(bytes: &[u8]) -> String {
    let mut text = String::with_capacity(2 * bytes.len());
    for byte in bytes {
        write!(text, "{byte:02x}").unwrap();
    }
    text
}

fn tree_of(argument: &str) -> Result<Tree, String> {
    match argument.strip_prefix("s:") {
        Some(sheet) => sheet_of(sheet),
        None => {
            let read = ask::read(&text_of(argument)?);
            read.map(|tree| Tree::from_box(&tree)).map_err(|no| format!("unread {}", refusal_text(&no)))
        }
    }
}

fn sheet_of(sheet: &str) -> Result<Tree, String> {
    let (words, names) = sheet.split_once(':').ok_or_else(bad_line)?;
    let words: Result<Vec<u64>, _> = words.split(',').map(str::parse).collect();
    let words = words.map_err(|_| bad_line())?;
    let tree = Tree::from_sheet(&words, &bytes_of(names)?).ok_or(BAD_SHEET)?;
    // The crate holds each name as text, so a byte alone that is no text cannot be asked.
    let mut containers = tree.nodes.iter().filter(|node| is_container(node.kind));
    if containers.any(|node| std::str::from_utf8(tree.name(node)).is_err()) {
        return Err("bad utf8".to_string());
    }
    Ok(tree)
}

fn text_of(argument: &str) -> Result<String, String> {
    let bytes = bytes_of(argument.strip_prefix("t:").ok_or_else(bad_line)?)?;
    String::from_utf8(bytes).map_err(|_| "bad utf8".to_string())
}

fn bytes_of(hex: &str) -> Result<Vec<u8>, String> {
    let digits: Option<Vec<u8>> = hex.chars().map(|c| c.to_digit(16).map(|d| d as u8)).collect();
    let digits = digits.filter(|digits| digits.len() % 2 == 0).ok_or_else(bad_line)?;
    Ok(digits.chunks_exact(2).map(|pair| 16 * pair[0] + pair[1]).collect())
}

fn bad_line() -> String {
    "bad line".to_string()
}
