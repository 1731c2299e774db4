//! Strict reading, against the crate and request N3: tree, refusal with its values, and all lent memory;
//! and against ordinary reading, from which only refusal 19 may tell it.

use crate::ask::{self, Refusal};
use crate::draw;
use crate::library;
use crate::random::Random;
use crate::report::{refusal_name, Case, Difference, Tally};
use crate::run_reads::{Lists, Named, Wanted};
use crate::surplus;
use crate::texts;
use crate::trees::Tree;

/// What short texts are made of. With so few bytes each refusal that reading meets occurs: by `b777` 11.
const TOKENS: [&str; 19] =
    ["[", "]", "{", "}", "(", ")", "=", "x", "b", "i", "0", "1", "7", "j", "f", "^", "@", "\"", "r"];

/// Fewer of them, for longer texts.
const FEW_TOKENS: [&str; 11] = ["[", "]", "{", "}", "=", "x", "b", "i", "0", "7", "^"];

/// Every text of up to `most` bytes, and of two more over fewer bytes.
pub fn short_inputs(most: usize) -> impl Iterator<Item = Case> {
    draw::each(texts::every(&TOKENS, most).chain(texts::every(&FEW_TOKENS, most + 2)))
}

pub fn inputs(seed: u64, count: u64) -> impl Iterator<Item = Case> {
    draw::cases(seed, count, |random| draw::with_text(any(random), random))
}

fn any(random: &mut Random) -> String {
    let text = match random.below(20) {
        0 => {
            let length = texts::length(random);
            late(random, length)
        }
        1 => texts::any(random),
        2 | 3 => pieces(random),
        4 => {
            let length = texts::length(random);
            let text = texts::deep(random, length);
            respelled(random, &text)
        }
        _ => {
            let text = texts::any(random);
            respelled(random, &text)
        }
    };
    if random.percent(25) {
        texts::spoilt(random, &text)
    } else {
        text
    }
}

const ENDS: [&str; 10] =
    ["b00}", "[00c]}", "b0i00}", "b7Q0255}", "b0}", "b00", "[007", "b0i07", "b0256x}", "[00"];

/// A record of exactly this many bytes, if they are enough, with its numbers at its end.
fn late(random: &mut Random, length: usize) -> String {
    let end = random.pick(&ENDS);
    format!("{{R={}{end}", "i".repeat(length.saturating_sub(3 + end.len())))
}

/// What looks like a surplus zero and is none, what is one, and what reading stops at.
const PIECES: [&str; 32] = [
    "i", "^", "^b7", "@", "@?", "jf", "b0", "b0i0", "b256i7", "[0c]", "[10i]", "{R}", "(U=b0)", "@\"b01\"",
    "@\"[00\"", "@\"\"", "@\"{b00=\"", "{b01=i}", "{b00}", "(b0i00=b7)", "{0=b8}", "#", "b00", "[00c]", "b0i00",
    "[007", "b0256", "{x)[00c]}", "{[00=i}", "j[00c]", "b18446744073709551616i00", "b256",
];

/// Some of them, in a record or not. The later ones, which are refused, are seldom.
fn pieces(random: &mut Random) -> String {
    let mut text = random.pick(&["{R=", "{R=", "(U=", "r", "^", "[3"]).to_string();
    for _ in 0..random.within(1, 8) {
        let few = if random.percent(90) { 22 } else { PIECES.len() };
        text += random.pick(&PIECES[..few]);
    }
    text + random.pick(&["}", "}", ")", "]", ""])
}

/// With each number in its one spelling, but for some that get zeros in front: one alone, or each by the
/// same chance. Digits in names and quotes are treated alike.
fn respelled(random: &mut Random, text: &str) -> String {
    let odd = random.pick(&[0, 0, 1, 5, 30]);
    // Of at most two digits, no number is refused by 11.
    let small = random.percent(60);
    let bytes = text.as_bytes();
    let is_digit = |at: usize| bytes.get(at).is_some_and(u8::is_ascii_digit);
    let begins = |at: usize| is_digit(at) && (at == 0 || !is_digit(at - 1));
    let numbers = (0..bytes.len()).filter(|&at| begins(at)).count();
    let chosen = if random.percent(40) { random.below(numbers.max(1)) } else { usize::MAX };
    let mut new = String::new();
    let mut rest = text;
    for number in 0..numbers {
        let start = rest.find(|c: char| c.is_ascii_digit()).unwrap();
        let length = rest[start..].bytes().take_while(u8::is_ascii_digit).count();
        new += &rest[..start];
        if number == chosen || random.percent(odd) {
            new += &"0".repeat(random.pick(&[1, 1, 2, 30]));
        }
        let digits = rest[start..start + length].trim_start_matches('0');
        new += match digits {
            "" => "0",
            _ if small => &digits[..digits.len().min(2)],
            _ => digits,
        };
        rest = &rest[start + length..];
    }
    new + rest
}

const READERS: [Named; 1] = [("from_str_strict", library::from_str_strict)];

#[derive(Default)]
pub struct Check {
    tree: Tree,
    lists: Lists,
    words: Vec<u64>,
    names: Vec<u8>,
}

impl Check {
    pub fn case(&mut self, case: &Case, tally: &mut Tally) -> Result<(), Difference> {
        let text = case.text.as_str();
        let mut random = Random::new(case.extra);
        if !self.lists.lengths(&READERS, text, &mut random, tally)? {
            return Ok(());
        }
        let answer = ask::read(text);
        let surplus = ask::surplus_zero(text, &answer);
        if surplus.map(|refusal| refusal.place as usize) != surplus::by_crate(text) {
            return Err("the walk over the text, and the crate alone, find another surplus zero".to_string());
        }
        count(text, answer.as_ref().err(), surplus, tally);
        let wanted: Wanted = match &answer {
            Ok(read) => {
                self.tree.refill(read);
                Ok((&self.tree, 0))
            }
            Err(refusal) => Err(*refusal),
        };
        // The same room for both readings.
        let room = random.next();
        let strict = surplus.map_or(wanted, Err);
        let lists = &mut self.lists;
        lists.reading("from_str_strict", library::from_str_strict, text, strict, &mut Random::new(room))?;
        self.words.clear();
        self.words.extend_from_slice(lists.left().0);
        self.names.clear();
        self.names.extend_from_slice(lists.left().1);
        lists.reading("from_str", library::from_str, text, wanted, &mut Random::new(room))?;
        if surplus.is_none() && lists.left() != (&self.words[..], &self.names[..]) {
            return Err("from_str_strict: leaves other lists than from_str".to_string());
        }
        Ok(())
    }
}

/// By the strict answer; where that is 19, also by what the crate answers and by what number it is.
fn count(text: &str, ordinary: Option<&Refusal>, surplus: Option<Refusal>, tally: &mut Tally) {
    let ordinary = refusal_name(ordinary.map_or(0, |refusal| refusal.number));
    let Some(refusal) = surplus else {
        return tally.add("from_str_strict", ordinary);
    };
    tally.add("from_str_strict", refusal_name(19));
    tally.add("19 goes before", ordinary);
    let number = match text.as_bytes()[refusal.place as usize - 1] {
        b'[' => "an array's length",
        b'b' => "a bitfield's first number",
        _ => "a bitfield's second number",
    };
    tally.add("19 is for", number);
}
