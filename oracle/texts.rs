//! Random texts: well-formed, spoilt, and such as are related to a tree.

use crate::plain::{inside, Level};
use crate::random::Random;
use crate::sheet::*;
use crate::trees::Tree;

/// What short texts are made of: every byte that means something, digits, a letter that is no code,
/// and two foreign characters, the second of them of two bytes.
pub const TOKENS: [&str; 42] = [
    "c", "s", "i", "l", "q", "C", "S", "I", "L", "Q", "f", "d", "D", "j", "B", "v", "*", "@", "#", ":", "?",
    "b", "^", "A", "[", "]", "{", "}", "(", ")", "=", "\"", "0", "1", "9", "_", "x", "r", "n", "V", "~",
    "\u{e9}",
];

/// Fewer of them, for longer texts.
pub const FEW_TOKENS: [&str; 17] =
    ["i", "@", "?", "#", "\"", "^", "A", "b", "1", "[", "]", "{", "}", "(", ")", "=", "x"];

/// Every text of up to `most` of the given tokens.
pub fn every(tokens: &'static [&'static str], most: usize) -> impl Iterator<Item = String> {
    let places =
        (0..=most).flat_map(|length| (0..tokens.len().pow(length as u32)).map(move |index| (length, index)));
    places.map(|(length, mut index)| {
        let mut text = String::new();
        for _ in 0..length {
            text += tokens[index % tokens.len()];
            index /= tokens.len();
        }
        text
    })
}

const CODES: [&str; 34] = [
    "c", "s", "i", "l", "q", "C", "S", "I", "L", "Q", "f", "d", "D", "jf", "jd", "jD", "B", "v", "*", "@",
    "@?", "#", ":", "?", "@\"Rate\"", "@\"\"", "@\"\u{e9}{=\"", "b0", "b3", "b255", "b0i7", "b7Q255",
    "b12B1", "b3i",
];

const NAMES: [&str; 8] = ["R", "R", "x", "?", "_", "Rate", "R1", "CGPoint"];
const BAD_NAMES: [&str; 6] = ["", "??", "R-", "?R", "R\u{e9}", " "];

/// A length, mostly short, seldom at the limit.
pub fn length(random: &mut Random) -> usize {
    match random.below(1000) {
        0..=499 => random.below(13),
        500..=859 => random.within(10, 80),
        860..=964 => random.within(80, 400),
        965..=989 => random.within(400, 2000),
        990..=995 => random.within(1998, 2002),
        _ => random.within(1990, 2010),
    }
}

/// A text for reading.
pub fn any(random: &mut Random) -> String {
    let length = length(random);
    // Near the limit the length itself matters.
    if length >= 1990 && random.percent(70) {
        return exactly(random, length);
    }
    match random.below(10) {
        0 => tokens(random, length.min(40)),
        1 => deep(random, length),
        2 => exactly(random, length),
        3 => {
            let text = exactly(random, length);
            spoilt(random, &text)
        }
        4..=6 => well_formed(random, length),
        _ => {
            let text = well_formed(random, length);
            spoilt(random, &text)
        }
    }
}

pub fn tokens(random: &mut Random, length: usize) -> String {
    (0..length).map(|_| random.pick(&TOKENS)).collect()
}

/// Qualifiers now and then, a type of about that length, and seldom something after it.
fn well_formed(random: &mut Random, length: usize) -> String {
    let mut text = String::new();
    if random.percent(10) {
        text += random.pick(&["r", "n", "rnNoORV", "rr", "V"]);
    }
    item(random, &mut text, length);
    if random.percent(5) {
        text += random.pick(&["16", "i", "]", "}", "0@", "\u{e9}"]);
    }
    text
}

/// One type of about `length` bytes.
pub fn item(random: &mut Random, text: &mut String, length: usize) {
    if length < 4 {
        *text += random.pick(&CODES);
        return;
    }
    match random.below(20) {
        0..=3 => {
            text.push('[');
            number(random, text);
            if random.percent(95) {
                item(random, text, length - 4);
            }
            text.push(']');
        }
        4..=6 => {
            text.push('^');
            // Without a type it takes what follows, or gives a closer back.
            if random.percent(95) {
                item(random, text, length - 1);
            }
        }
        7 | 8 => {
            text.push('A');
            item(random, text, length - 1);
        }
        9 => {
            text.push('b');
            number(random, text);
            if random.percent(60) {
                *text += random.pick(&["c", "s", "i", "l", "q", "C", "S", "I", "L", "Q", "B", "@", "^"]);
                number(random, text);
            }
        }
        _ => container(random, text, length),
    }
}

fn container(random: &mut Random, text: &mut String, length: usize) {
    let (open, close) = if random.percent(65) { ('{', '}') } else { ('(', ')') };
    text.push(open);
    *text += if random.percent(98) { random.pick(&NAMES) } else { random.pick(&BAD_NAMES) };
    // Without the equal sign there are no fields.
    if random.percent(90) {
        text.push('=');
        let end = text.len() + length - 4;
        let widest = if random.percent(50) { length } else { 6 };
        while text.len() < end {
            let part = random.within(1, widest.min(end - text.len()));
            item(random, text, part);
        }
    }
    text.push(close);
}

/// Numbers with surplus zeros, at the borders, and beyond them.
fn number(random: &mut Random, text: &mut String) {
    if random.percent(10) {
        *text += &"0".repeat(random.within(1, 30));
    }
    let number = match random.below(24) {
        0 => "18446744073709551615".to_string(),
        1 => "18446744073709551616".to_string(),
        2 => "255".to_string(),
        3 => "256".to_string(),
        4 => "99999999999999999999".to_string(),
        5 => crate::grow::number(random).to_string(),
        _ => random.below(20).to_string(),
    };
    *text += &number;
}

/// A record of exactly this many bytes.
fn exactly(random: &mut Random, length: usize) -> String {
    if length < 4 {
        return "i".repeat(length.min(1));
    }
    let mut text = "{R=".to_string();
    loop {
        let before = text.len();
        let part = random.within(1, 20);
        item(random, &mut text, part);
        if text.len() >= length {
            text.truncate(before);
            break;
        }
    }
    let left = length - 1 - text.len().min(length - 1);
    text + &"i".repeat(left) + "}"
}

/// A chain, closed or not.
pub fn deep(random: &mut Random, length: usize) -> String {
    let (open, close) = random.pick(&[
        ("^", ""),
        ("A", ""),
        ("[1", "]"),
        ("{R=", "}"),
        ("(?=", ")"),
        ("^{x=", "}"),
        ("[0^", "]"),
    ]);
    let times = length / (open.len() + close.len());
    let middle = random.pick(&["i", "", "@", "5"]);
    let closers = if random.percent(80) { times } else { times.saturating_sub(1) };
    open.repeat(times) + middle + &close.repeat(closers)
}

/// The text with one to three edits.
pub fn spoilt(random: &mut Random, text: &str) -> String {
    let mut bytes = text.as_bytes().to_vec();
    for _ in 0..random.within(1, 3) {
        edit(random, &mut bytes);
    }
    // A character cut in two is dropped, as the crate takes UTF-8 alone.
    String::from_utf8(bytes)
        .unwrap_or_else(|bad| bad.into_bytes().into_iter().filter(u8::is_ascii).map(char::from).collect())
}

fn edit(random: &mut Random, bytes: &mut Vec<u8>) {
    let at = random.below(bytes.len() + 1);
    let token = random.pick(&TOKENS).as_bytes();
    match random.below(7) {
        0 => bytes.truncate(at),
        1 => {
            let end = (at + random.within(1, 3)).min(bytes.len());
            bytes.drain(at..end);
        }
        2 if at < bytes.len() => {
            bytes.splice(at..at + 1, token.iter().copied());
        }
        3 if at < bytes.len() => {
            let other = random.below(bytes.len());
            bytes.swap(at, other);
        }
        4 => {
            let end = (at + random.within(1, 8)).min(bytes.len());
            let part = bytes[at..end].to_vec();
            bytes.splice(at..at, part);
        }
        5 => swap_closer(random, bytes),
        _ => {
            bytes.splice(at..at, token.iter().copied());
        }
    }
}

/// A closer becomes another one.
fn swap_closer(random: &mut Random, bytes: &mut [u8]) {
    let closers: Vec<usize> = (0..bytes.len()).filter(|&at| b"]})".contains(&bytes[at])).collect();
    if !closers.is_empty() {
        let at = random.pick(&closers);
        bytes[at] = random.pick(b"]})");
    }
}

/// A tree as text, with liberties taken at each node by the given chance in a hundred: other
/// members of the object group, quoted names, surplus zeros, fields left out or put in.
pub fn spelled(random: &mut Random, tree: &Tree, liberty: usize) -> String {
    let mut spelling = Spelling { random, tree, liberty, text: String::new() };
    if spelling.free() {
        spelling.text += "rV";
    }
    spelling.node(0, Level::Top);
    spelling.text
}

struct Spelling<'a> {
    random: &'a mut Random,
    tree: &'a Tree,
    liberty: usize,
    text: String,
}

impl Spelling<'_> {
    fn free(&mut self) -> bool {
        self.liberty > 0 && self.random.percent(self.liberty)
    }

    fn number(&mut self, number: u64) {
        if self.free() {
            self.text += self.random.pick(&["0", "000"]);
        }
        self.text += &number.to_string();
    }

    fn node(&mut self, at: usize, level: Level) {
        let node = self.tree.nodes[at];
        let below = inside(node.kind, level);
        match node.kind {
            BITFIELD => {
                self.text.push('b');
                self.number(node.second);
            }
            TYPED_BITFIELD => {
                self.text.push('b');
                self.number(node.first);
                self.node(at + 1, below);
                self.number(node.second);
            }
            POINTER | ATOMIC => {
                self.text.push(if node.kind == POINTER { '^' } else { 'A' });
                self.node(at + 1, below);
            }
            ARRAY => {
                self.text.push('[');
                self.number(node.first);
                self.node(at + 1, below);
                self.text.push(']');
            }
            STRUCT | UNION => self.container(at, level),
            NONE => {}
            kind => self.code(kind),
        }
    }

    fn code(&mut self, kind: u64) {
        const CODES: [&str; 24] = [
            "c", "s", "i", "l", "q", "C", "S", "I", "L", "Q", "f", "d", "D", "jf", "jd", "jD", "B", "v", "*",
            "@", "@?", "#", ":", "?",
        ];
        let in_group = (OBJECT..=CLASS).contains(&kind);
        let code = if in_group && self.free() {
            self.random.pick(&["@", "@?", "#", "@\"Rate\"", "#\"R\"", "@?\"\"", "@\"", "@\"\u{e9}\""])
        } else if self.liberty > 0 && self.random.below(20 * 100) < self.liberty {
            self.random.pick(&CODES)
        } else {
            CODES[kind as usize]
        };
        self.text += code;
    }

    fn container(&mut self, at: usize, level: Level) {
        let node = self.tree.nodes[at];
        let (open, close) = if node.kind == STRUCT { ('{', '}') } else { ('(', ')') };
        self.text.push(open);
        self.text += std::str::from_utf8(self.tree.name(&node)).unwrap();
        let shows = level != Level::Bottom;
        match self.free() {
            false if shows => self.fields(at),
            false => {}
            true => match self.random.below(5) {
                0 => {}
                1 => self.text.push('='),
                2 => self.fields(at),
                3 => {
                    self.fields(at);
                    item(self.random, &mut self.text, 1);
                }
                _ => self.other_fields(),
            },
        }
        let wrong = self.liberty > 0 && self.random.below(10 * 100) < self.liberty;
        self.text.push(if wrong { self.random.pick(&['}', ')', ']', ' ']) } else { close });
    }

    fn fields(&mut self, at: usize) {
        self.text.push('=');
        let end = at + self.tree.nodes[at].count as usize;
        // An empty container matches any fields that can be read.
        if at + 1 == end && self.random.percent(self.liberty.max(1)) {
            self.text.pop();
            return self.other_fields();
        }
        let mut child = at + 1;
        while child < end {
            self.node(child, Level::Within);
            child += self.tree.nodes[child].count as usize;
        }
    }

    fn other_fields(&mut self) {
        self.text.push('=');
        for _ in 0..self.random.below(3) {
            let length = self.random.within(1, 12);
            item(self.random, &mut self.text, length);
        }
        if self.random.percent(5) {
            self.text += self.random.pick(&["]", "x", ")", "\u{e9}", "j", "5"]);
        }
    }
}
