//! Whole signatures, against the crate's parser and request N1: entries, refusal with its values, and
//! all of the lent list.

use crate::ask::{self, Entry, Refusal};
use crate::draw;
use crate::library::{self, reply, MARK};
use crate::random::Random;
use crate::report::{expect, refusal_name, Case, Difference, Tally};
use crate::run_reads::{count_length, starts_with, BEYOND, MOST_TEXT};
use crate::texts;

/// What short signatures are made of. With so few of them each refusal occurs: by `b256` 11, by
/// `v4294967296` 17.
const TOKENS: [&str; 25] = [
    "v", "@", "?", "\"", "i", "j", "f", "b", "^", "A", "[", "]", "{", "}", "(", ")", "=", "x", "r", "0", "7",
    "256", "4294967296", "~", "\u{e9}",
];

/// Fewer of them, for longer signatures.
const FEW_TOKENS: [&str; 14] =
    ["i", "@", "\"", "^", "b", "[", "]", "{", "}", "=", "x", "8", "r", "4294967295"];

/// Every signature of up to `most` tokens, and of one more over fewer tokens.
pub fn short_inputs(most: usize) -> impl Iterator<Item = Case> {
    draw::each(texts::every(&TOKENS, most).chain(texts::every(&FEW_TOKENS, most + 1)))
}

pub fn inputs(seed: u64, count: u64) -> impl Iterator<Item = Case> {
    draw::cases(seed, count, |random| draw::with_text(any(random), random))
}

/// A signature, well-formed or spoilt, and seldom something that is none.
fn any(random: &mut Random) -> String {
    let length = texts::length(random);
    let mut maker = Maker::new(random);
    // Near the limit the length itself matters.
    let text = if length >= 1990 && maker.random.percent(70) {
        maker.exactly(length)
    } else {
        match maker.random.below(20) {
            0 => return texts::any(random),
            1 => return texts::tokens(random, length.min(40)),
            2 => maker.deep(length),
            3 => maker.exactly(length),
            _ => maker.about(length),
        }
    };
    match random.below(20) {
        0 => signed(random, &text),
        1..=7 => texts::spoilt(random, &text),
        _ => text,
    }
}

/// Writes signatures; how seldom its types and numbers are odd is the same for all of one signature.
struct Maker<'a> {
    random: &'a mut Random,
    odd: usize,
}

impl Maker<'_> {
    fn new(random: &mut Random) -> Maker<'_> {
        let odd = random.pick(&[0, 1, 5, 30]);
        Maker { random, odd }
    }

    fn about(&mut self, length: usize) -> String {
        let mut text = String::new();
        while text.len() < length {
            let room = length - text.len();
            self.entry(&mut text, room);
        }
        text
    }

    /// Exactly so many bytes: what is missing is a number of zeros, or a qualifier at the start.
    fn exactly(&mut self, length: usize) -> String {
        let dense = self.random.percent(20);
        let mut text = String::new();
        loop {
            let before = text.len();
            if dense {
                text += "i0";
            } else {
                self.entry(&mut text, 20);
            }
            if text.len() > length {
                text.truncate(before);
                break;
            }
        }
        match length - text.len() {
            0 => text,
            1 => format!("r{text}"),
            left => format!("{text}i{}", "0".repeat(left - 1)),
        }
    }

    /// A chain between two other types.
    fn deep(&mut self, length: usize) -> String {
        let mut text = String::new();
        self.entry(&mut text, 4);
        text += &texts::deep(self.random, length.saturating_sub(4));
        self.number(&mut text);
        self.entry(&mut text, 4);
        text
    }

    fn entry(&mut self, text: &mut String, room: usize) {
        if self.random.percent(10) {
            *text += self.random.pick(&["r", "n", "rnNoORV", "rr", "V"]);
        }
        if self.random.percent(self.odd) {
            let length = self.random.within(1, room.clamp(1, 60));
            texts::item(self.random, text, length);
        } else {
            *text += self.random.pick(&TYPES);
        }
        self.number(text);
    }

    fn number(&mut self, text: &mut String) {
        let odd = self.random.percent(self.odd);
        if odd && self.random.percent(50) {
            *text += &"0".repeat(self.random.within(1, 30));
        }
        *text += &match self.random.below(8) {
            0 if odd => "4294967295".to_string(),
            1 if odd => "4294967296".to_string(),
            2 if odd => "4294967294".to_string(),
            3 if odd => "18446744073709551616".to_string(),
            4 if odd => (0..self.random.within(1, 60)).map(|_| self.random.pick(&DIGITS)).collect(),
            5 if odd => crate::grow::number(self.random).to_string(),
            6 if odd => String::new(),
            0 => (self.random.next() as u32).to_string(),
            _ => (4 * self.random.below(40)).to_string(),
        };
    }
}

const DIGITS: [char; 10] = ['0', '1', '2', '3', '4', '5', '6', '7', '8', '9'];

/// Types as methods have them.
const TYPES: [&str; 32] = [
    "v", "@", ":", "i", "d", "q", "Q", "B", "c", "f", "s", "I", "#", "*", "^v", "^i", "@?", "^@", "^?", "jd", "D",
    "@\"NSDate\"", "{Rate=id}", "^{Rate=id}", "^^{Rate}", "{Box={Point=dd}{Point=dd}}", "(Number=if)", "[4c]",
    "^[8d]", "{?=b1b4b3}", "{Flags=b0I1b1I4}", "AB",
];

/// With a sign in front of a number, as old runtimes write it.
fn signed(random: &mut Random, text: &str) -> String {
    let digits: Vec<usize> = (0..text.len()).filter(|&at| text.as_bytes()[at].is_ascii_digit()).collect();
    if digits.is_empty() {
        return text.to_string();
    }
    let (before, behind) = text.split_at(random.pick(&digits));
    format!("{before}{}{behind}", random.pick(&["+", "-"]))
}

pub struct Check {
    list: Vec<u64>,
    wanted: Vec<u64>,
}

impl Check {
    pub fn new() -> Check {
        Check { list: Vec::new(), wanted: Vec::new() }
    }

    pub fn case(&mut self, case: &Case, tally: &mut Tally) -> Result<(), Difference> {
        let text = case.text.as_str();
        let mut random = Random::new(case.extra);
        if text.len() > MOST_TEXT {
            // Also where the list is short.
            let lent = random.below(3 * (text.len() / 2) + 4);
            tally.add("long text", refusal_name(1));
            return self.nothing_done(text, lent, 1);
        }
        count_length(text, tally);
        let needed = 3 * (text.len() / 2);
        if needed > 0 && random.percent(15) {
            let lent = if random.percent(50) { needed - 1 } else { random.below(needed) };
            tally.add("short list", refusal_name(2));
            self.nothing_done(text, lent, 2)?;
        }
        let answer = ask::signature(text);
        tally.add("signature", outcome(&answer));
        if let Ok(entries) = &answer {
            tally.add("entries", count(entries.len()));
        }
        self.reading(text, &answer, needed + random.pick(&[0, 0, 1, 5]))
    }

    /// Reads once and looks at everything.
    fn reading(
        &mut self,
        text: &str,
        answer: &Result<Vec<Entry>, Refusal>,
        lent: usize,
    ) -> Result<(), Difference> {
        let needed = 3 * (text.len() / 2);
        self.mark(lent);
        let got = library::signature(text.as_bytes(), &mut self.list[..lent]);
        self.wanted.clear();
        match answer {
            Ok(entries) => {
                expect("signature", got, reply(0, &[entries.len() as u64, 0, 0]))?;
                self.wanted.extend(entries.iter().flat_map(|entry| [entry.start, entry.length, entry.number]));
            }
            Err(Refusal { number, place, byte, kind }) => {
                expect("signature", got, reply(*number, &[*place, *byte, *kind]))?;
            }
        }
        if !starts_with(&self.list[..needed], &self.wanted) {
            return Err("signature: another list, or something other than 0 after it".to_string());
        }
        self.is_marked(needed)
    }

    fn nothing_done(&mut self, text: &str, lent: usize, refusal: u64) -> Result<(), Difference> {
        self.mark(lent);
        let got = library::signature(text.as_bytes(), &mut self.list[..lent]);
        expect("signature", got, reply(refusal, &[0, 0, 0]))?;
        self.is_marked(0)
    }

    fn mark(&mut self, lent: usize) {
        self.list.clear();
        self.list.resize(lent + BEYOND, MARK);
    }

    fn is_marked(&self, from: usize) -> Result<(), Difference> {
        if self.list[from..].iter().all(|&number| number == MARK) {
            Ok(())
        } else {
            Err("signature: wrote beyond its part".to_string())
        }
    }
}

fn outcome(answer: &Result<Vec<Entry>, Refusal>) -> &'static str {
    match answer {
        Ok(_) => refusal_name(0),
        Err(refusal) if refusal.number == 8 && (48..58).contains(&refusal.byte) => "refused 08, a digit",
        Err(refusal) => refusal_name(refusal.number),
    }
}

fn count(entries: usize) -> &'static str {
    match entries {
        1 => "1",
        2..=10 => "2 to 10",
        11..=100 => "11 to 100",
        101..=999 => "101 to 999",
        _ => "1,000",
    }
}
