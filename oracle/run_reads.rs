//! Whole-text reading and reading from the start, against the crate: tree, rest, refusal with its values,
//! and all lent memory.

use crate::ask::{self, Refusal};
use crate::draw;
use crate::library::{self, reply, Reader, MARK, MARK_BYTE};
use crate::random::Random;
use crate::report::{expect, refusal_name, Case, Difference, Tally};
use crate::sheet::HEADER;
use crate::texts::{self, FEW_TOKENS, TOKENS};
use crate::trees::Tree;

pub const MOST_TEXT: usize = 2000;
/// Words and bytes that are looked at beyond what was lent.
pub const BEYOND: usize = 8;

pub fn inputs(seed: u64, count: u64) -> impl Iterator<Item = Case> {
    draw::cases(seed, count, |random| draw::with_text(texts::any(random), random))
}

/// Every text of up to `most` tokens, and of one more over fewer tokens.
pub fn short_inputs(most: usize) -> impl Iterator<Item = Case> {
    draw::each(texts::every(&TOKENS, most).chain(texts::every(&FEW_TOKENS, most + 1)))
}

/// What reading must answer: the tree and a place, or a refusal.
pub type Wanted<'a> = Result<(&'a Tree, usize), Refusal>;

/// The lists that readers are lent.
#[derive(Default)]
pub struct Lists {
    wanted_words: Vec<u64>,
    words: Vec<u64>,
    names: Vec<u8>,
}

#[derive(Default)]
pub struct Check {
    tree: Tree,
    lists: Lists,
}

/// A reader with its name.
pub type Named = (&'static str, Reader);

const BOTH: [Named; 2] = [("from_str", library::from_str), ("from_start_of_str", library::from_start_of_str)];

impl Check {
    pub fn new() -> Check {
        Check::default()
    }

    pub fn case(&mut self, case: &Case, tally: &mut Tally) -> Result<(), Difference> {
        let text = case.text.as_str();
        let mut random = Random::new(case.extra);
        if !self.lists.lengths(&BOTH, text, &mut random, tally)? {
            return Ok(());
        }
        let mut tree = std::mem::take(&mut self.tree);
        let result = self.both(text, &mut tree, &mut random, tally);
        self.tree = tree;
        result
    }

    fn both(
        &mut self,
        text: &str,
        tree: &mut Tree,
        random: &mut Random,
        tally: &mut Tally,
    ) -> Result<(), Difference> {
        let answer = ask::read(text);
        tally.add("from_str", refusal_name(answer.as_ref().err().map_or(0, |refusal| refusal.number)));
        let wanted = answer.map(|read| {
            tree.refill(&read);
            (&*tree, 0)
        });
        self.lists.reading("from_str", library::from_str, text, wanted, random)?;

        let answer = ask::read_start(text);
        tally.add("from_start_of_str", outcome_of_start(text, &answer.as_ref().map(|found| found.1)));
        let wanted = answer.map(|(read, place)| {
            tree.refill(&read);
            (&*tree, place)
        });
        self.lists.reading("from_start_of_str", library::from_start_of_str, text, wanted, random)
    }
}

impl Lists {
    /// Refusals 1 and 2; whether the text can be read by lists that are long enough.
    pub fn lengths(
        &mut self,
        readers: &[Named],
        text: &str,
        random: &mut Random,
        tally: &mut Tally,
    ) -> Result<bool, Difference> {
        if text.len() > MOST_TEXT {
            self.too_long(readers, text, random, tally)?;
            return Ok(false);
        }
        count_length(text, tally);
        if random.percent(15) {
            self.short_lists(readers, text, random, tally)?;
        }
        Ok(true)
    }

    /// All that stands in the lists and beyond.
    pub fn left(&self) -> (&[u64], &[u8]) {
        (&self.words, &self.names)
    }

    /// Reads once, with room that is just enough or more, and looks at everything.
    pub fn reading(
        &mut self,
        name: &'static str,
        reader: Reader,
        text: &str,
        wanted: Wanted,
        random: &mut Random,
    ) -> Result<(), Difference> {
        let words_needed = HEADER + 4 * (text.len() + 1);
        let names_needed = text.len();
        let words_lent = words_needed + random.pick(&[0, 0, 1, 5]);
        let names_lent = names_needed + random.pick(&[0, 0, 1, 5]);
        self.mark(words_lent, names_lent);
        let got = reader(text.as_bytes(), &mut self.words[..words_lent], &mut self.names[..names_lent]);
        match wanted {
            Ok((tree, place)) => {
                expect(name, got, reply(0, &[place as u64, 0, 0]))?;
                tree.write_words(&mut self.wanted_words);
                let words_are_right = starts_with(&self.words[..words_needed], &self.wanted_words);
                let names_are_right = starts_with(&self.names[..names_needed], &tree.names);
                if !words_are_right || !names_are_right {
                    return Err(format!("{name}: another tree, or something other than 0 after it"));
                }
            }
            Err(Refusal { number, place, byte, kind }) => {
                expect(name, got, reply(number, &[place, byte, kind]))?;
                let words_are_zero = starts_with(&self.words[..words_needed], &[]);
                let names_are_zero = starts_with(&self.names[..names_needed], &[]);
                if !words_are_zero || !names_are_zero {
                    return Err(format!("{name}: refused, and something other than 0 is left"));
                }
            }
        }
        self.is_marked(name, words_needed, names_needed)
    }

    /// Refusal 2: a list that is one short, or shorter.
    fn short_lists(
        &mut self,
        readers: &[Named],
        text: &str,
        random: &mut Random,
        tally: &mut Tally,
    ) -> Result<(), Difference> {
        let words_needed = HEADER + 4 * (text.len() + 1);
        let names_needed = text.len();
        let (words_lent, names_lent) = match random.below(5) {
            0 => (words_needed - 1, names_needed),
            1 if names_needed > 0 => (words_needed, names_needed - 1),
            2 if names_needed > 0 => (words_needed + 3, random.below(names_needed)),
            3 => (random.below(words_needed), names_needed + 3),
            _ => (random.below(words_needed), random.below(names_needed + 1)),
        };
        tally.add("short list", refusal_name(2));
        self.nothing_done(readers, text, words_lent, names_lent, 2)
    }

    /// Refusal 1, also where the lists are short.
    fn too_long(
        &mut self,
        readers: &[Named],
        text: &str,
        random: &mut Random,
        tally: &mut Tally,
    ) -> Result<(), Difference> {
        let words_lent = random.below(HEADER + 4 * (text.len() + 1) + 4);
        let names_lent = random.below(text.len() + 4);
        tally.add("long text", refusal_name(1));
        self.nothing_done(readers, text, words_lent, names_lent, 1)
    }

    fn nothing_done(
        &mut self,
        readers: &[Named],
        text: &str,
        words_lent: usize,
        names_lent: usize,
        refusal: u64,
    ) -> Result<(), Difference> {
        for &(name, reader) in readers {
            self.mark(words_lent, names_lent);
            let got = reader(text.as_bytes(), &mut self.words[..words_lent], &mut self.names[..names_lent]);
            expect(name, got, reply(refusal, &[0, 0, 0]))?;
            self.is_marked(name, 0, 0)?;
        }
        Ok(())
    }

    fn mark(&mut self, words_lent: usize, names_lent: usize) {
        self.words.clear();
        self.words.resize(words_lent + BEYOND, MARK);
        self.names.clear();
        self.names.resize(names_lent + BEYOND, MARK_BYTE);
    }

    fn is_marked(&self, name: &str, words_from: usize, names_from: usize) -> Result<(), Difference> {
        let words_are_left = self.words[words_from..].iter().all(|&word| word == MARK);
        let names_are_left = self.names[names_from..].iter().all(|&byte| byte == MARK_BYTE);
        if words_are_left && names_are_left {
            Ok(())
        } else {
            Err(format!("{name}: wrote beyond its part"))
        }
    }
}

/// Whether a list is `start` and then nothing but zeros.
pub fn starts_with<T: Copy + PartialEq + Default>(list: &[T], start: &[T]) -> bool {
    list.len() >= start.len()
        && list[..start.len()] == *start
        && list[start.len()..].iter().all(|&item| item == T::default())
}

fn outcome_of_start(text: &str, answer: &Result<usize, &Refusal>) -> &'static str {
    match answer {
        Err(refusal) => refusal_name(refusal.number),
        Ok(place) if *place == text.len() => "accepted, no rest",
        // Whole-text reading tells an eaten digit from a type with bytes after it.
        Ok(_) if ask::read(text).is_err_and(|refusal| refusal.number == 8) => "accepted, a digit is eaten",
        Ok(_) => "accepted, a rest",
    }
}

pub fn count_length(text: &str, tally: &mut Tally) {
    let length = match text.len() {
        0 => "0",
        1..=10 => "1 to 10",
        11..=100 => "11 to 100",
        101..=1000 => "101 to 1,000",
        1001..=1999 => "1,001 to 1,999",
        _ => "2,000",
    };
    tally.add("text bytes", length);
}
