//! Times of the library and of the crate on the same trees and texts, in one process. The ratio is
//! the crate's time by ours: above 1 we are faster. Nothing fails here by being slow.

use std::fmt::Write as _;
use std::hint::black_box;
use std::time::Instant;

use crate::ask;
use crate::helper::NestingLevel;
use crate::library::{self, Sheet};
use crate::parse::Parser;
use crate::plain_layout;
use crate::reason::Finder;
use crate::sheet::{DOUBLE, INT, STRUCT, UNION};
use crate::static_str::static_encoding_str_array;
use crate::trees::{Arena, Tree};
use crate::Encoding;

/// Batches for each time; their median counts.
const BATCHES: usize = 15;
const BATCH_NANOSECONDS: f64 = 2e6;

pub fn run() -> bool {
    println!("| tree | what | crate, ns | ours, ns | ratio |");
    println!("|---|---|---:|---:|---:|");
    for (name, text) in shapes() {
        let tree = Tree::from_box(&ask::read(&text).expect("a text that reads"));
        let name = format!("{name}: {} bytes, {} nodes", text.len(), tree.nodes.len());
        bench_tree(&name, &tree);
        bench_reason(&name, &tree);
        bench_reading(&name, &text);
        bench_matching(&name, &tree);
    }
    for (name, text) in laid_out() {
        let tree = Tree::from_box(&ask::read(&text).expect("a text that reads"));
        bench_layout(&format!("{name}: {} bytes, {} nodes", text.len(), tree.nodes.len()), &tree);
    }
    for (name, text) in signatures() {
        bench_signature(name, &text);
    }
    bench_growth();
    bench_signature_growth();
    true
}

fn shapes() -> Vec<(&'static str, String)> {
    vec![
        ("a code", "i".to_string()),
        ("a record", RECORD.to_string()),
        ("a long record", long_record(2000)),
        ("codes only", format!("{{R={}}}", "i".repeat(1996))),
        ("pointers", format!("{}i", "^".repeat(1000))),
        ("nested records", format!("{}i{}", "{R=".repeat(499), "}".repeat(499))),
    ]
}

/// Trees that have a layout: without bitfields, and of several counts of nodes.
fn laid_out() -> Vec<(&'static str, String)> {
    vec![
        ("a code", "i".to_string()),
        ("a point", "{Point=dd}".to_string()),
        ("a laid-out record", LAID_OUT_RECORD.to_string()),
        ("a laid-out record", long_laid_out(100)),
        ("a laid-out record", long_laid_out(400)),
        ("a long laid-out record", long_laid_out(2000)),
        ("codes only", format!("{{R={}}}", "i".repeat(1996))),
        ("codes in turn", format!("{{R={}}}", "cqsiBd".repeat(332))),
        ("unions", format!("{{R={}}}", "(U=ic)".repeat(332))),
        ("arrays", format!("{{R={}}}", "[4s][2q]".repeat(249))),
        ("pointers", format!("{}i", "^".repeat(1000))),
        ("nested records", format!("{}i{}", "{R=".repeat(499), "}".repeat(499))),
        ("nested arrays", format!("{}i{}", "[1".repeat(666), "]".repeat(666))),
        ("a record with a bitfield", RECORD.to_string()),
        ("a long record with a void", format!("{{R={}v}}", "ci".repeat(997))),
    ]
}

const LAID_OUT_RECORD: &str = "{Rate=i^v{Point=dd}[4c]@\"NSDate\"^{Band=s}(U=if)c*:#Bq^^{Q}}";

/// A record of exactly so many bytes that has a layout, of the same mixture at every length.
fn long_laid_out(length: usize) -> String {
    let mut text = "{R=".to_string();
    for field in ["i", "^v", "[4c]", "@", "s", "{P=dd}", "*", "^{B}", "(U=if)", "Aq", ":"].iter().cycle() {
        if text.len() + field.len() >= length {
            break;
        }
        text += field;
    }
    let left = length - 1 - text.len();
    text + &"i".repeat(left) + "}"
}

const RECORD: &str = "{Rate=i^v{Point=dd}[4c]@\"NSDate\"^{Band=s}(U=if)b3*:#Bq^^{Q}}";

/// A record of exactly so many bytes, of the same mixture at every length.
fn long_record(length: usize) -> String {
    let mut text = "{R=".to_string();
    for field in ["i", "^v", "[4c]", "@", "b3", "{P=dd}", "*", "^{B}", "(U=if)", "b0i7", ":"].iter().cycle() {
        if text.len() + field.len() >= length {
            break;
        }
        text += field;
    }
    let left = length - 1 - text.len();
    text + &"i".repeat(left) + "}"
}

fn signatures() -> Vec<(&'static str, String)> {
    vec![
        ("a method", "v24@0:8@16".to_string()),
        ("a method with records", METHOD.to_string()),
        ("a long signature", long_signature(2000)),
        ("the most types", "i0".repeat(1000)),
    ]
}

const METHOD: &str = "{Rate=id}72@0:8{Point=dd}16^{Band=s^v}32@\"NSDate\"40r*48@?56^@64";

/// A signature of exactly so many bytes, of the same mixture at every length.
fn long_signature(length: usize) -> String {
    let entries = [
        "v24", "@0", ":8", "{Rate=id}16", "q32", "^{Band=s}40", "@\"NSDate\"48", "r*56", "@?64", "{Point=dd}72", "^i88",
        "[4c]96", "B100", "^^{Q}104",
    ];
    let mut text = String::new();
    for entry in entries.iter().cycle() {
        if text.len() + entry.len() + 2 > length {
            break;
        }
        text += entry;
    }
    let left = length - text.len();
    text + "i" + &"0".repeat(left - 1)
}

fn bench_tree(name: &str, tree: &Tree) {
    let (mut first, mut second) = (Arena::default(), Arena::default());
    let (a, b) = (first.encoding(tree), second.encoding(tree));
    let boxed = tree.to_box();
    let words = tree.words();
    let sheet = Sheet { words: &words, names: &tree.names };
    let length = ask::printed_length(a);
    let mut out = vec![0; length];
    let mut shown = String::with_capacity(length);

    line(
        name,
        "length",
        || ask::printed_length(black_box(a)),
        || library::static_encoding_str_len(black_box(sheet)).0,
    );
    if let Some(mut print) = array_printer(a, tree, length) {
        let ours = || library::static_encoding_str_array(black_box(sheet), &mut out, length).0;
        line(name, "print, to array", &mut print, ours);
    }
    let display = || {
        shown.clear();
        write!(shown, "{}", black_box(a)).unwrap();
        shown.len()
    };
    let ours = || library::static_encoding_str_array(black_box(sheet), &mut out, length).0;
    line(name, "print, to Display", display, ours);
    line(name, "size", || black_box(a).size(), || library::size(black_box(sheet), 0).0);
    // The crate has no rows: on its side stands the tree with codes that here have that row's sizes.
    let mut third = Arena::default();
    for (row, what) in [(2, "size, row 2"), (3, "size, row 3")] {
        let made = third.encoding_in_row(tree, row as usize);
        line(name, what, || black_box(made).size(), || library::size(black_box(sheet), black_box(row)).0);
    }
    let theirs = || black_box(a).equivalent_to(black_box(b));
    line(name, "equivalent_to", theirs, || library::equivalent_to(black_box(sheet), black_box(sheet)).0);
    let theirs = || black_box(a).equivalent_to_box(black_box(&boxed));
    line(name, "equivalent_to_box", theirs, || {
        library::equivalent_to_box(black_box(sheet), black_box(sheet)).0
    });
    let theirs = || black_box(a) == black_box(&boxed);
    line(name, "==", theirs, || library::eq(black_box(sheet), black_box(sheet)).0);
}

/// The crate has no layouts: a plain pass over its trees stands on its side.
fn bench_layout(name: &str, tree: &Tree) {
    let boxed = tree.to_box();
    let words = tree.words();
    let sheet = Sheet { words: &words, names: &tree.names };
    let mut pushed = Vec::with_capacity(tree.nodes.len());
    let mut offsets = vec![0; tree.nodes.len()];
    for (row, what) in [(0, "layout"), (2, "layout, row 2")] {
        let theirs = || plain_layout::layout(black_box(&boxed), black_box(row), &mut pushed).is_ok();
        let ours = || library::layout(black_box(sheet), black_box(row as u64), &mut offsets, tree.nodes.len()).0;
        line(name, what, theirs, ours);
    }
}

/// The tree against one with another last node, so that all nodes are compared. The crate has no reasons: a
/// plain walk over its trees, in the order of its comparison, stands on its side.
fn bench_reason(name: &str, tree: &Tree) {
    let other = with_another_last(tree);
    let (mut first, mut second) = (Arena::default(), Arena::default());
    let (a, b) = (first.encoding(tree), second.encoding(&other));
    let (words, other_words) = (tree.words(), other.words());
    let sheet = Sheet { words: &words, names: &tree.names };
    let other_sheet = Sheet { words: &other_words, names: &other.names };
    assert_eq!(library::equivalent_to(sheet, other_sheet), library::reply(0, &[0]), "the pair is a no");
    let mut finder = Finder::default();
    let mut out = vec![0; 8016];

    let theirs = || black_box(a).equivalent_to(black_box(b));
    let ours = || library::equivalent_to(black_box(sheet), black_box(other_sheet)).0;
    line(name, "equivalent_to, a no", theirs, ours);
    let theirs = || finder.find(black_box(a), black_box(b), false).map(<[u8]>::len);
    let ours = || library::reason(black_box(sheet), black_box(other_sheet), &mut out, 8016).1[1];
    line(name, "reason", theirs, ours);
    let theirs = || finder.find(black_box(a), black_box(b), true).map(<[u8]>::len);
    let ours = || library::reason_all(black_box(sheet), black_box(other_sheet), &mut out, 8016).1[1];
    line(name, "reason_all", theirs, ours);
}

/// With another kind of the last node, which no level hides.
fn with_another_last(tree: &Tree) -> Tree {
    let mut other = tree.clone();
    let last = other.nodes.last_mut().unwrap();
    last.kind = match last.kind {
        STRUCT => UNION,
        INT => DOUBLE,
        _ => INT,
    };
    other
}

/// The crate's printing into an array that has room, unless that takes too long.
fn array_printer<'a>(made: &'a Encoding, tree: &Tree, length: usize) -> Option<Box<dyn FnMut() -> u8 + 'a>> {
    ask::printed(made, tree, 20_000_000)?;
    Some(match length {
        0..=64 => Box::new(move || static_encoding_str_array::<64>(black_box(made), NestingLevel::new())[0]),
        65..=512 => {
            Box::new(move || static_encoding_str_array::<512>(black_box(made), NestingLevel::new())[0])
        }
        _ => Box::new(move || static_encoding_str_array::<4096>(black_box(made), NestingLevel::new())[0]),
    })
}

fn bench_reading(name: &str, text: &str) {
    let (mut words, mut names) = (vec![0; 8 + 4 * text.len()], vec![0; text.len()]);
    let ours = || library::from_str(black_box(text.as_bytes()), &mut words, &mut names).0;
    line(name, "from_str", || crate_read(black_box(text)), ours);
    let ours = || library::from_str_strict(black_box(text.as_bytes()), &mut words, &mut names).0;
    line(name, "from_str_strict", || crate_read(black_box(text)), ours);
    let ours = || library::from_start_of_str(black_box(text.as_bytes()), &mut words, &mut names).0;
    line(name, "from_start_of_str", || crate_read_start(black_box(text)), ours);
}

/// Each tree against its own print.
fn bench_matching(name: &str, tree: &Tree) {
    let mut arena = Arena::default();
    let made = arena.encoding(tree);
    let print = ask::displayed(made);
    let print = std::str::from_utf8(&print).unwrap();
    let sheet_words = tree.words();
    let sheet = Sheet { words: &sheet_words, names: &tree.names };
    let theirs = || black_box(made).equivalent_to_str(black_box(print));
    let ours = || library::equivalent_to_str(black_box(sheet), black_box(print.as_bytes())).0;
    line(name, "equivalent_to_str", theirs, ours);
}

fn bench_signature(name: &str, text: &str) {
    let mut list = vec![0; 3 * (text.len() / 2)];
    let mut entries = Vec::with_capacity(text.len() / 2);
    let types = ask::signature(text).expect("a signature that reads").len();
    let name = format!("{name}: {} bytes, {types} types", text.len());
    let ours = || library::signature(black_box(text.as_bytes()), &mut list).0;
    line(&name, "signature", || crate_signature(black_box(text), &mut entries), ours);
}

/// The crate's parser, type after type, with a plain loop over the digits between them. The entries have
/// room before the clock runs.
fn crate_signature(text: &str, entries: &mut Vec<[u64; 3]>) -> bool {
    entries.clear();
    let mut start = 0;
    while start < text.len() {
        let mut parser = Parser::new(&text[start..]);
        parser.strip_leading_qualifiers();
        if parser.parse_encoding_or_none().is_err() {
            return false;
        }
        let end = text.len() - parser.remaining().len();
        let mut at = end;
        let mut number: u64 = 0;
        while let Some(digit) = text.as_bytes().get(at).filter(|byte| byte.is_ascii_digit()) {
            number = number * 10 + u64::from(digit - b'0');
            if number > u64::from(u32::MAX) {
                return false;
            }
            at += 1;
        }
        if at == end {
            return false;
        }
        entries.push([start as u64, (end - start) as u64, number]);
        start = at;
    }
    true
}

fn crate_read(text: &str) -> bool {
    text.parse::<crate::EncodingBox>().is_ok()
}

fn crate_read_start(text: &str) -> bool {
    let mut rest = text;
    crate::EncodingBox::from_start_of_str(&mut rest).is_ok()
}

/// How the time of reading grows: it is linear if the time for a byte stays the same.
fn bench_growth() {
    println!();
    println!("| reading, bytes | crate, ns a byte | ours, ns a byte | ratio |");
    println!("|---:|---:|---:|---:|");
    for text in [long_record(20), long_record(200), long_record(2000)] {
        let (mut words, mut names) = (vec![0; 8 + 4 * text.len()], vec![0; text.len()]);
        let ours = || library::from_str(black_box(text.as_bytes()), &mut words, &mut names).0;
        let (theirs, ours) = times(|| crate_read(black_box(&text)), ours);
        let bytes = text.len() as f64;
        println!("| {} | {:.2} | {:.2} | {:.2} |", text.len(), theirs / bytes, ours / bytes, theirs / ours);
    }
}

/// The same of signatures.
fn bench_signature_growth() {
    println!();
    println!("| signature, bytes | crate, ns a byte | ours, ns a byte | ratio |");
    println!("|---:|---:|---:|---:|");
    for text in [long_signature(20), long_signature(200), long_signature(2000)] {
        let mut list = vec![0; 3 * (text.len() / 2)];
        let mut entries = Vec::with_capacity(text.len() / 2);
        let ours = || library::signature(black_box(text.as_bytes()), &mut list).0;
        let (theirs, ours) = times(|| crate_signature(black_box(&text), &mut entries), ours);
        let bytes = text.len() as f64;
        println!("| {} | {:.2} | {:.2} | {:.2} |", text.len(), theirs / bytes, ours / bytes, theirs / ours);
    }
}

fn line<A, B>(name: &str, what: &str, theirs: impl FnMut() -> A, ours: impl FnMut() -> B) {
    let (theirs, ours) = times(theirs, ours);
    println!("| {name} | {what} | {theirs:.1} | {ours:.1} | {:.2} |", theirs / ours);
}

/// The median times of both, taken in turns so that a slow moment of the machine meets both.
fn times<A, B>(mut theirs: impl FnMut() -> A, mut ours: impl FnMut() -> B) -> (f64, f64) {
    let (their_count, our_count) = (calls_in_a_batch(&mut theirs), calls_in_a_batch(&mut ours));
    let (mut their_times, mut our_times) = (Vec::new(), Vec::new());
    for _ in 0..BATCHES {
        their_times.push(batch(&mut theirs, their_count));
        our_times.push(batch(&mut ours, our_count));
    }
    (median(their_times), median(our_times))
}

fn calls_in_a_batch<T>(call: &mut impl FnMut() -> T) -> u32 {
    let mut count = 1;
    loop {
        let taken = batch(call, count) * f64::from(count);
        if taken > BATCH_NANOSECONDS || count > 1 << 24 {
            return count;
        }
        count *= 2;
    }
}

/// Nanoseconds for one of so many calls.
fn batch<T>(call: &mut impl FnMut() -> T, count: u32) -> f64 {
    let start = Instant::now();
    for _ in 0..count {
        black_box(call());
    }
    start.elapsed().as_secs_f64() * 1e9 / f64::from(count)
}

fn median(mut times: Vec<f64>) -> f64 {
    times.sort_by(f64::total_cmp);
    times[times.len() / 2]
}
