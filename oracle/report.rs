//! What every run has in common: lists as they are lent, counts by outcome, the smallest input
//! with a difference.

use std::collections::BTreeMap;

use crate::grow::{repack, splice};
use crate::library::{Reply, Sheet, MARK};
use crate::random::Random;
use crate::sheet::*;
use crate::trees::{Arena, Node, Tree};

/// How often each outcome occurred.
#[derive(Default)]
pub struct Tally {
    counts: BTreeMap<(&'static str, &'static str), u64>,
}

impl Tally {
    pub fn add(&mut self, what: &'static str, outcome: &'static str) {
        *self.counts.entry((what, outcome)).or_insert(0) += 1;
    }

    pub fn yes_no(&mut self, what: &'static str, yes: bool) {
        self.add(what, if yes { "yes" } else { "no" });
    }

    fn print(&self) {
        for ((what, outcome), count) in &self.counts {
            println!("    {what:<27} {outcome:<37} {count:>9}");
        }
    }
}

/// One name for each refusal, for the counts.
pub fn refusal_name(number: u64) -> &'static str {
    const NAMES: &[&str] = &[
        "accepted", "refused 01", "refused 02", "refused 03", "refused 04", "refused 05", "refused 06",
        "refused 07", "refused 08", "refused 09", "refused 10", "refused 11", "refused 12", "refused 13",
        "refused 14", "refused 15", "refused 16", "refused 17", "refused 18", "refused 19", "refused 20",
        "refused 21",
    ];
    NAMES.get(number as usize).copied().unwrap_or("refused, unknown number")
}

/// A difference, in words.
pub type Difference = String;

pub fn expect(what: &str, got: Reply, wanted: Reply) -> Result<(), Difference> {
    if got == wanted {
        Ok(())
    } else {
        Err(format!("{what}: the library {}, wanted {}", show_reply(got), show_reply(wanted)))
    }
}

/// An answer that was not written shows as a dash.
fn show_reply((refusal, answers): Reply) -> String {
    let answers = answers.map(|answer| if answer == MARK { "-".to_string() } else { answer.to_string() });
    format!("returns {refusal} with {}", answers.join(" "))
}

/// The lists of a sheet with random words and bytes beyond those used.
#[derive(Default)]
pub struct Lent {
    words: Vec<u64>,
    names: Vec<u8>,
    words_before: Vec<u64>,
    names_before: Vec<u8>,
}

impl Lent {
    pub fn fill(&mut self, tree: &Tree, garbage: &mut Random) {
        tree.write_words(&mut self.words);
        self.names.clone_from(&tree.names);
        self.pad(garbage);
    }

    /// The same with lists that need not be a sheet.
    pub fn fill_raw(&mut self, words: &[u64], names: &[u8]) {
        self.words.clear();
        self.words.extend_from_slice(words);
        self.names.clear();
        self.names.extend_from_slice(names);
        self.note();
    }

    fn pad(&mut self, garbage: &mut Random) {
        for _ in 0..garbage.below(4) {
            let word = garbage.next() >> garbage.below(64);
            self.words.push(word);
        }
        for _ in 0..garbage.below(4) {
            self.names.push(garbage.next() as u8);
        }
        self.note();
    }

    fn note(&mut self) {
        self.words_before.clone_from(&self.words);
        self.names_before.clone_from(&self.names);
    }

    pub fn sheet(&self) -> Sheet<'_> {
        Sheet { words: &self.words, names: &self.names }
    }

    pub fn is_unchanged(&self) -> Result<(), Difference> {
        if self.words == self.words_before && self.names == self.names_before {
            Ok(())
        } else {
            Err("a lent sheet was changed".to_string())
        }
    }
}

/// An input of a run.
pub trait Input: Clone {
    /// How large it is; what is tried instead is always smaller.
    fn weight(&self) -> usize;
    /// A smaller input that passes the test, if one is found.
    fn smaller(&self, test: &mut dyn FnMut(&Self) -> bool) -> Option<Self>;
    /// In the form in which the oracle program takes it.
    fn show(&self) -> String;
}

/// Up to two trees and a text; a run looks at those that it needs.
#[derive(Clone, Default)]
pub struct Case {
    pub a: Tree,
    pub b: Tree,
    pub text: String,
    /// Decides on everything else: room, and what stands beyond the used part.
    pub extra: u64,
}

impl Input for Case {
    fn weight(&self) -> usize {
        tree_weight(&self.a) + tree_weight(&self.b) + self.text.len()
    }

    fn smaller(&self, test: &mut dyn FnMut(&Case) -> bool) -> Option<Case> {
        let with_a = smaller_tree(&self.a, &mut |a| test(&Case { a: a.clone(), ..self.clone() }));
        if let Some(a) = with_a {
            return Some(Case { a, ..self.clone() });
        }
        let with_b = smaller_tree(&self.b, &mut |b| test(&Case { b: b.clone(), ..self.clone() }));
        if let Some(b) = with_b {
            return Some(Case { b, ..self.clone() });
        }
        let with_text =
            smaller_text(&self.text, &mut |text| test(&Case { text: text.to_string(), ..self.clone() }));
        with_text.map(|text| Case { text, ..self.clone() })
    }

    fn show(&self) -> String {
        let mut shown = String::new();
        for tree in [&self.a, &self.b].into_iter().filter(|tree| !tree.nodes.is_empty()) {
            let print = Arena::default().encoding(tree).to_string();
            shown += &format!("    {}  that prints {print:?}\n", show_sheet(&tree.words(), &tree.names));
        }
        shown
            + &format!("    t:{}  {:?}\n    extra {}", show_hex(self.text.as_bytes()), self.text, self.extra)
    }
}

pub fn show_sheet(words: &[u64], names: &[u8]) -> String {
    let words: Vec<String> = words.iter().map(u64::to_string).collect();
    format!("s:{}:{}", words.join(","), show_hex(names))
}

fn show_hex(bytes: &[u8]) -> String {
    bytes.iter().map(|byte| format!("{byte:02x}")).collect()
}

fn tree_weight(tree: &Tree) -> usize {
    let numbers = tree.nodes.iter().filter(|node| !is_container(node.kind));
    let digits: u32 =
        numbers.map(|node| 128 - node.first.leading_zeros() - node.second.leading_zeros()).sum();
    100 * tree.nodes.len() + tree.names.len() + digits as usize
}

fn smaller_tree(tree: &Tree, test: &mut dyn FnMut(&Tree) -> bool) -> Option<Tree> {
    let mut attempt = |mut new: Tree| {
        repack(&mut new);
        (tree_weight(&new) < tree_weight(tree) && test(&new)).then_some(new)
    };
    for at in 0..tree.nodes.len() {
        let end = at + tree.nodes[at].count as usize;
        let alone = Tree { nodes: tree.nodes[at..end].to_vec(), names: tree.names.clone() };
        let found =
            attempt(alone).or_else(|| attempt(without(tree, at)?)).or_else(|| attempt(with_leaf(tree, at)));
        let found = found.or_else(|| attempt(with_child(tree, at)?)).or_else(|| attempt(with_less(tree, at)));
        if found.is_some() {
            return found;
        }
    }
    None
}

/// Without a field.
fn without(tree: &Tree, at: usize) -> Option<Tree> {
    let parent = (0..at).rev().find(|&above| above + tree.nodes[above].count as usize > at)?;
    if !is_container(tree.nodes[parent].kind) {
        return None;
    }
    let mut new = tree.clone();
    splice(&mut new, at, tree.nodes[at].count as usize, &Tree::default());
    Some(new)
}

/// With `i` in place of a subtree.
fn with_leaf(tree: &Tree, at: usize) -> Tree {
    let mut new = tree.clone();
    let leaf = Tree { nodes: vec![Node { kind: 2, first: 0, second: 0, count: 1 }], names: Vec::new() };
    splice(&mut new, at, tree.nodes[at].count as usize, &leaf);
    new
}

/// With its first child in place of a node.
fn with_child(tree: &Tree, at: usize) -> Option<Tree> {
    if tree.nodes[at].count == 1 {
        return None;
    }
    let end = at + 1 + tree.nodes[at + 1].count as usize;
    // Its names are brought along, as those of `tree` stand before them.
    let child = Tree { nodes: tree.nodes[at + 1..end].to_vec(), names: tree.names.clone() };
    let mut new = tree.clone();
    splice(&mut new, at, tree.nodes[at].count as usize, &child);
    Some(new)
}

/// With numbers 0 and a name of one byte.
fn with_less(tree: &Tree, at: usize) -> Tree {
    let mut new = tree.clone();
    if is_container(new.nodes[at].kind) {
        new.nodes[at].second = new.nodes[at].second.min(1);
    } else {
        new.nodes[at].first = 0;
        new.nodes[at].second = 0;
    }
    new
}

/// Without a part of the text, large parts first.
fn smaller_text(text: &str, test: &mut dyn FnMut(&str) -> bool) -> Option<String> {
    let mut part = text.len();
    while part > 0 {
        for start in 0..=text.len() - part {
            if text.is_char_boundary(start) && text.is_char_boundary(start + part) {
                let new = format!("{}{}", &text[..start], &text[start + part..]);
                if test(&new) {
                    return Some(new);
                }
            }
        }
        part /= 2;
    }
    None
}

/// After so many differences a run stops; by then a small one is among them.
const ENOUGH: u64 = 200;
const MOST_ATTEMPTS: u64 = 200_000;

/// Checks every input, prints the counts, and on a difference the smallest input that shows it.
pub fn run<I: Input>(
    name: &str,
    inputs: impl Iterator<Item = I>,
    mut check: impl FnMut(&I, &mut Tally) -> Result<(), Difference>,
) -> bool {
    let start = std::time::Instant::now();
    let mut tally = Tally::default();
    let mut smallest: Option<I> = None;
    let (mut cases, mut differences) = (0u64, 0u64);
    for input in inputs {
        cases += 1;
        if check(&input, &mut tally).is_err() {
            differences += 1;
            if smallest.as_ref().is_none_or(|least| input.weight() < least.weight()) {
                smallest = Some(input);
            }
            if differences == ENOUGH {
                break;
            }
        }
    }
    println!("{name}: {cases} cases, {differences} differences, {:.1} s", start.elapsed().as_secs_f64());
    tally.print();
    if let Some(input) = smallest {
        let input = smallest_like(input, &mut |input| check(input, &mut tally).is_err());
        println!("  smallest differing input:\n{}", input.show());
        println!("  {}", check(&input, &mut tally).err().unwrap_or_else(|| "not the same twice".to_string()));
    }
    differences == 0
}

fn smallest_like<I: Input>(mut input: I, differs: &mut dyn FnMut(&I) -> bool) -> I {
    let mut attempts = 0;
    let mut test = |input: &I| {
        attempts += 1;
        attempts < MOST_ATTEMPTS && differs(input)
    };
    while let Some(smaller) = input.smaller(&mut test) {
        input = smaller;
    }
    input
}
