//! How runs come by their cases: so many that are drawn at random, or every short one.

use crate::random::Random;
use crate::report::Case;
use crate::texts;
use crate::trees::Tree;
use crate::EncodingBox;

/// `count` cases, each drawn by `make`.
pub fn cases(seed: u64, count: u64, make: fn(&mut Random) -> Case) -> impl Iterator<Item = Case> {
    let mut random = Random::new(seed);
    (0..count).map(move |_| make(&mut random))
}

pub fn with_tree(a: Tree, random: &mut Random) -> Case {
    Case { a, extra: random.next(), ..Case::default() }
}

pub fn with_text(text: String, random: &mut Random) -> Case {
    Case { text, extra: random.next(), ..Case::default() }
}

/// Each of the texts.
pub fn each(texts: impl Iterator<Item = String>) -> impl Iterator<Item = Case> {
    let mut random = Random::new(0);
    texts.map(move |text| with_text(text, &mut random))
}

/// The tree of every text of up to `most` tokens that can be read.
pub fn every_tree(tokens: &'static [&'static str], most: usize) -> impl Iterator<Item = Case> {
    let mut random = Random::new(0);
    let trees = texts::every(tokens, most).filter_map(|text| text.parse::<EncodingBox>().ok());
    trees.map(move |tree| with_tree(Tree::from_box(&tree), &mut random))
}
