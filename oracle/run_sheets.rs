//! Spoilt sheets, against the plain test of document 01's layout; those that turn out valid go
//! to the crate as well.

use crate::damage::{raw, Raw};
use crate::library::{self, reply, Sheet, MARK, MARK_BYTE};
use crate::plain;
use crate::random::Random;
use crate::report::{expect, refusal_name, show_sheet, Case, Difference, Input, Lent, Tally};
use crate::run_layouts;
use crate::run_reasons;
use crate::run_rows;
use crate::run_trees;
use crate::sheet::{is_container, is_good_name, BAD_NAME};
use crate::trees::{Arena, Tree};

/// Two pairs of lists.
#[derive(Clone)]
pub struct RawCase {
    a: Raw,
    b: Raw,
    extra: u64,
}

impl Input for RawCase {
    fn weight(&self) -> usize {
        [&self.a, &self.b].iter().map(|raw| 8 * raw.words.len() + raw.names.len()).sum()
    }

    /// Only the list ends and a whole side are tried; the smallest of many is small anyway.
    fn smaller(&self, test: &mut dyn FnMut(&RawCase) -> bool) -> Option<RawCase> {
        let leaf = Raw { words: vec![1, 4, 0, 8, 2, 0, 0, 1], names: Vec::new() };
        let tries = [
            RawCase { a: leaf.clone(), ..self.clone() },
            RawCase { b: leaf, ..self.clone() },
            RawCase { a: without_last(&self.a, true), ..self.clone() },
            RawCase { a: without_last(&self.a, false), ..self.clone() },
            RawCase { b: without_last(&self.b, true), ..self.clone() },
            RawCase { b: without_last(&self.b, false), ..self.clone() },
        ];
        tries.into_iter().find(|smaller| smaller.weight() < self.weight() && test(smaller))
    }

    fn show(&self) -> String {
        let a = show_sheet(&self.a.words, &self.a.names);
        let b = show_sheet(&self.b.words, &self.b.names);
        format!("    {a}\n    {b}\n    extra {}", self.extra)
    }
}

fn without_last(raw: &Raw, word: bool) -> Raw {
    let mut raw = raw.clone();
    if word {
        raw.words.pop();
    } else {
        raw.names.pop();
    }
    raw
}

pub fn inputs(seed: u64, count: u64) -> impl Iterator<Item = RawCase> {
    let mut random = Random::new(seed);
    (0..count).map(move |_| RawCase { a: raw(&mut random), b: raw(&mut random), extra: random.next() })
}

pub struct Check {
    trees: run_trees::Check,
    arena: Arena,
    lent_a: Lent,
    lent_b: Lent,
    out: Vec<u8>,
    offsets: Vec<u64>,
    long_text: Vec<u8>,
}

impl Check {
    pub fn new() -> Check {
        Check {
            trees: run_trees::Check::new(),
            arena: Arena::default(),
            lent_a: Lent::default(),
            lent_b: Lent::default(),
            out: vec![MARK_BYTE; 1 << 17],
            offsets: vec![MARK; 128],
            long_text: vec![b'i'; 2001],
        }
    }

    pub fn case(&mut self, case: &RawCase, tally: &mut Tally) -> Result<(), Difference> {
        self.lent_a.fill_raw(&case.a.words, &case.a.names);
        self.lent_b.fill_raw(&case.b.words, &case.b.names);
        let a = plain::verdict(&case.a.words, &case.a.names);
        let b = plain::verdict(&case.b.words, &case.b.names);
        self.alone(case, a, tally)?;
        self.together(case, a, b, tally)?;
        self.lent_a.is_unchanged()?;
        self.lent_b.is_unchanged()
    }

    /// What takes one sheet.
    fn alone(&mut self, case: &RawCase, verdict: u64, tally: &mut Tally) -> Result<(), Difference> {
        let sheet = self.lent_a.sheet();
        tally.add("one sheet", outcome(case, verdict));
        check_text(sheet, verdict, &self.long_text)?;
        if verdict == 0 {
            let tree = Tree::from_sheet(&case.a.words, &case.a.names).unwrap();
            let mut garbage = Random::new(case.extra);
            run_trees::check_print(&mut self.arena, &tree, sheet, &mut self.out, &mut garbage, tally)?;
            return run_rows::check_size(&mut self.arena, &tree, sheet, 0, tally).map(|_| ());
        }
        run_rows::check_refused(verdict, sheet, tally)?;
        run_layouts::check_refused(verdict, sheet, &mut self.offsets, &mut Random::new(case.extra), tally)?;
        expect("static_encoding_str_len", library::static_encoding_str_len(sheet), reply(verdict, &[0]))?;
        let room = case.extra as usize % 64;
        let got = library::static_encoding_str_array(sheet, &mut self.out, room);
        let is_left = self.out[..128].iter().all(|&b| b == MARK_BYTE);
        self.out[..128].fill(MARK_BYTE);
        expect("static_encoding_str_array", got, reply(verdict, &[0]))?;
        if is_left {
            Ok(())
        } else {
            Err("static_encoding_str_array: wrote though it refused".to_string())
        }
    }

    /// What takes two.
    fn together(&mut self, case: &RawCase, a: u64, b: u64, tally: &mut Tally) -> Result<(), Difference> {
        let verdict = plain::verdict_of_two(a, b);
        let outcome = match (a, b) {
            (0, 0) => "accepted",
            (3, 3) => "03 and 03: refused 03",
            (3, 4) => "03 and 04: refused 03",
            (4, 3) => "04 and 03: refused 03",
            (4, 4) => "04 and 04: refused 04",
            (3, _) => "03 and good: refused 03",
            (4, _) => "04 and good: refused 04",
            (_, 3) => "good and 03: refused 03",
            _ => "good and 04: refused 04",
        };
        tally.add("two sheets", outcome);
        if verdict == 0 {
            return self.compare(case, tally);
        }
        let (first, second) = (self.lent_a.sheet(), self.lent_b.sheet());
        expect("equivalent_to", library::equivalent_to(first, second), reply(verdict, &[0]))?;
        expect("equivalent_to_box", library::equivalent_to_box(first, second), reply(verdict, &[0]))?;
        expect("eq", library::eq(first, second), reply(verdict, &[0]))?;
        let mut random = Random::new(case.extra);
        run_reasons::check_refused(verdict, (first, second), &mut self.out, &mut random, tally)
    }

    fn compare(&mut self, case: &RawCase, tally: &mut Tally) -> Result<(), Difference> {
        let tree = |raw: &Raw| Tree::from_sheet(&raw.words, &raw.names).unwrap();
        let trees = Case { a: tree(&case.a), b: tree(&case.b), text: String::new(), extra: case.extra };
        self.trees.case(&trees, tally)
    }
}

/// A bad name that no level shows is told apart, as the crate never comes to it.
fn outcome(case: &RawCase, verdict: u64) -> &'static str {
    if verdict != BAD_NAME {
        return refusal_name(verdict);
    }
    let tree = Tree::from_sheet(&case.a.words, &case.a.names).unwrap();
    let levels = plain::levels(&tree);
    let mut shown =
        tree.nodes.iter().zip(levels).filter(|(node, level)| is_container(node.kind) && level.is_some());
    if shown.all(|(node, _)| is_good_name(tree.name(node))) {
        "refused 04, the name is hidden"
    } else {
        "refused 04, the name is shown"
    }
}

/// A text that is too long is refused before the sheet is looked at.
fn check_text(sheet: Sheet, verdict: u64, long_text: &[u8]) -> Result<(), Difference> {
    expect("equivalent_to_str, long text", library::equivalent_to_str(sheet, long_text), reply(1, &[0]))?;
    if verdict == 0 {
        return Ok(());
    }
    expect("equivalent_to_str", library::equivalent_to_str(sheet, b"{R=i}"), reply(verdict, &[0]))
}
