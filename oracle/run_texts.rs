//! Tree against text, with trees and texts that are related more often than not.

use crate::grow;
use crate::library::{self, reply};
use crate::random::Random;
use crate::report::{expect, show_sheet, Case, Difference, Lent, Tally};
use crate::sheet::*;
use crate::texts;
use crate::trees::{Arena, Node, Tree};
use crate::{ask, plain};

const MOST_TEXT: usize = 2000;

pub fn inputs(seed: u64, count: u64) -> impl Iterator<Item = Case> {
    let mut random = Random::new(seed);
    (0..count).map(move |_| {
        let a = some_tree(&mut random);
        let text = some_text(&mut random, &a);
        Case { a, text, extra: random.next(), ..Case::default() }
    })
}

/// A tree that was grown, or one that was read, so that texts with liberties of reading occur.
fn some_tree(random: &mut Random) -> Tree {
    if random.percent(25) {
        let text = texts::any(random);
        if text.len() <= MOST_TEXT {
            if let Ok(read) = ask::read(&text) {
                return Tree::from_box(&read);
            }
        }
    }
    let manner = grow::manner(random);
    grow::tree(random, manner)
}

fn some_text(random: &mut Random, tree: &Tree) -> String {
    match random.below(20) {
        0..=3 => texts::spelled(random, tree, 0),
        4..=6 => {
            let text = texts::spelled(random, tree, 0);
            texts::spoilt(random, &text)
        }
        7..=9 => texts::spelled(random, tree, 5),
        10..=13 => texts::spelled(random, tree, 30),
        14 | 15 => {
            let other = grow::mutated(random, tree);
            texts::spelled(random, &other, 0)
        }
        16 | 17 => {
            let other = grow::mutated(random, tree);
            texts::spelled(random, &other, 20)
        }
        18 => {
            let text = texts::spelled(random, tree, 20);
            texts::spoilt(random, &text)
        }
        _ => texts::any(random),
    }
}

#[derive(Default)]
pub struct Check {
    arena: Arena,
    lent: Lent,
}

impl Check {
    pub fn new() -> Check {
        Check::default()
    }

    pub fn case(&mut self, case: &Case, tally: &mut Tally) -> Result<(), Difference> {
        self.lent.fill(&case.a, &mut Random::new(case.extra));
        let got = library::equivalent_to_str(self.lent.sheet(), case.text.as_bytes());
        if case.text.len() > MOST_TEXT {
            tally.add("equivalent_to_str", "refused 01");
            expect("equivalent_to_str", got, reply(1, &[0]))?;
            return self.lent.is_unchanged();
        }
        let yes = self.arena.encoding(&case.a).equivalent_to_str(&case.text);
        count(case, yes, tally);
        expect("equivalent_to_str", got, reply(0, &[yes.into()]))?;
        self.lent.is_unchanged()
    }
}

/// Small trees of every kind, those that are not sound included, each kept ready for asking.
pub struct ShortCheck {
    trees: Vec<(Tree, Lent)>,
    arena: Arena,
}

impl ShortCheck {
    pub fn new() -> ShortCheck {
        let mut garbage = Random::new(0);
        let trees = small_trees().into_iter().map(|tree| {
            let mut lent = Lent::default();
            lent.fill(&tree, &mut garbage);
            (tree, lent)
        });
        ShortCheck { trees: trees.collect(), arena: Arena::default() }
    }

    /// The case's text against each of the trees.
    pub fn case(&mut self, case: &Case, tally: &mut Tally) -> Result<(), Difference> {
        for (tree, lent) in &self.trees {
            let made = self.arena.encoding(tree);
            let yes = made.equivalent_to_str(&case.text);
            tally.yes_no("equivalent_to_str", yes);
            let got = library::equivalent_to_str(lent.sheet(), case.text.as_bytes());
            expect("equivalent_to_str", got, reply(0, &[yes.into()]))
                .map_err(|difference| format!("{}: {difference}", show_sheet(&tree.words(), &tree.names)))?;
        }
        Ok(())
    }
}

fn small_trees() -> Vec<Tree> {
    const READ: &str = "i @ @? # ? * jd b1 b11 b1i1 b11i0 ^ ^i ^@ ^? A Ai ^^ [1] [1i] [11@] [1^] [0[1i]] {x} {x=i} \
        {x=ii} {x=@?} {x=@} {x=^} {x={x}} {x={x=i}} {x=^{x=i}} {x=b1} {xx} {?} {?=i} (x) (x=i) (x={x}) (?) ^{x} ^{x=i} \
        ^^{x} ^^{x=i} A{x} A(x=i) [1{x}] [1{x=i}] {i} {1=i}";
    let read = READ.split_whitespace().map(|text| Tree::from_box(&ask::read(text).unwrap()));
    let unsound: [(&[[u64; 4]], &str); 8] = [
        (&[[STRUCT, 0, 1, 2], [NONE, 0, 0, 1]], "x"),
        (&[[STRUCT, 0, 1, 3], [OBJECT, 0, 0, 1], [UNKNOWN, 0, 0, 1]], "x"),
        (&[[STRUCT, 0, 1, 3], [NONE, 0, 0, 1], [2, 0, 0, 1]], "x"),
        (&[[STRUCT, 0, 1, 4], [POINTER, 0, 0, 2], [NONE, 0, 0, 1], [2, 0, 0, 1]], "x"),
        (&[[TYPED_BITFIELD, 1, 1, 2], [NONE, 0, 0, 1]], ""),
        (&[[TYPED_BITFIELD, 1, 1, 2], [OBJECT, 0, 0, 1]], ""),
        (&[[TYPED_BITFIELD, 1, 1, 2], [BITFIELD, 0, 1, 1]], ""),
        (&[[TYPED_BITFIELD, 1, 1, 2], [STRUCT, 0, 1, 1]], "x"),
    ];
    let unsound = unsound.into_iter().map(|(nodes, names)| {
        let nodes = nodes.iter().map(|&[kind, first, second, count]| Node { kind, first, second, count });
        Tree { nodes: nodes.collect(), names: names.as_bytes().to_vec() }
    });
    let none = Tree { nodes: vec![Node { kind: NONE, first: 0, second: 0, count: 1 }], names: Vec::new() };
    read.chain(unsound).chain([none]).collect()
}

pub fn short_inputs(most: usize) -> impl Iterator<Item = Case> {
    texts::every(&texts::FEW_TOKENS, most).map(|text| Case { text, ..Case::default() })
}

fn count(case: &Case, yes: bool, tally: &mut Tally) {
    tally.yes_no("equivalent_to_str", yes);
    tally.yes_no(if plain::is_sound(&case.a) { "  sound tree" } else { "  tree not sound" }, yes);
    tally.yes_no(if ask::read(&case.text).is_ok() { "  text that reads" } else { "  text not read" }, yes);
}
