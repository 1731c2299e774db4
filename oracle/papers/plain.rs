//! Document 01's own words as plain code, where the crate cannot be asked: levels, soundness, and which
//! refusal a sheet meets.

use crate::sheet::*;
use crate::trees::Tree;

#[derive(Clone, Copy, Debug, PartialEq)]
pub enum Level {
    Top,
    Within,
    Bottom,
}

/// The level of what a node holds.
pub fn inside(kind: u64, level: Level) -> Level {
    match (kind, level) {
        (POINTER, Level::Top) => Level::Within,
        (POINTER | ATOMIC, _) => Level::Bottom,
        (STRUCT | UNION, _) => Level::Within,
        _ => level,
    }
}

/// The level of every node; no level where it is hidden by a container at bottom.
pub fn levels(tree: &Tree) -> Vec<Option<Level>> {
    let mut open: Vec<(usize, Option<Level>)> = Vec::new();
    let mut levels = Vec::with_capacity(tree.nodes.len());
    for (at, node) in tree.nodes.iter().enumerate() {
        while open.last().is_some_and(|&(end, _)| end <= at) {
            open.pop();
        }
        let level = open.last().map_or(Some(Level::Top), |&(_, level)| level);
        levels.push(level);
        let hides = is_container(node.kind) && level == Some(Level::Bottom);
        let below = if hides { None } else { level.map(|level| inside(node.kind, level)) };
        open.push((at + node.count as usize, below));
    }
    levels
}

pub fn children(tree: &Tree, at: usize) -> impl Iterator<Item = usize> + '_ {
    let end = at + tree.nodes[at].count as usize;
    let first = (at + 1 < end).then_some(at + 1);
    std::iter::successors(first, move |&child| {
        let next = child + tree.nodes[child].count as usize;
        (next < end).then_some(next)
    })
}

/// The refusal that a sheet alone meets: 3, 4 or 0 for none.
pub fn verdict(words: &[u64], names: &[u8]) -> u64 {
    if !keeps_layout(words, names) {
        BAD_LAYOUT
    } else if !names_are_good(words, names) {
        BAD_NAME
    } else {
        0
    }
}

/// With two sheets, 3 is tested on both before 4 on either.
pub fn verdict_of_two(a: u64, b: u64) -> u64 {
    if a == BAD_LAYOUT || b == BAD_LAYOUT {
        BAD_LAYOUT
    } else {
        a.max(b)
    }
}

/// Document 01's "Sound", for a tree without bad names.
pub fn is_sound(tree: &Tree) -> bool {
    let mut walk = SoundWalk { tree, sound: true, after_object: false, after_none: false };
    walk.node(0, Level::Top, None);
    walk.sound
}

/// Goes through the shown part in the order of the print.
struct SoundWalk<'a> {
    tree: &'a Tree,
    sound: bool,
    /// The last byte is an Object's `@`.
    after_object: bool,
    /// A None under a pointer or an atomic: the next byte must close, if there is one.
    after_none: bool,
}

impl SoundWalk<'_> {
    fn byte(&mut self, closes: bool) {
        self.sound &= closes || !self.after_none;
        self.after_none = false;
        self.after_object = false;
    }

    fn node(&mut self, at: usize, level: Level, under: Option<u64>) {
        let node = self.tree.nodes[at];
        self.sound &= under != Some(TYPED_BITFIELD) || matches!(node.kind, 0..=9 | 16);
        match node.kind {
            NONE => match under {
                None | Some(ARRAY) => {}
                Some(POINTER | ATOMIC) => self.after_none = true,
                _ => self.sound = false,
            },
            STRUCT | UNION => self.container(at, level),
            UNKNOWN => {
                self.sound &= !self.after_object;
                self.byte(false);
            }
            _ => {
                self.byte(false);
                self.after_object = node.kind == OBJECT;
                if has_one_child(node.kind) {
                    self.node(at + 1, inside(node.kind, level), Some(node.kind));
                }
                // The `]`, or the last digit of a bitfield's size.
                if node.kind == ARRAY || node.kind == TYPED_BITFIELD {
                    self.byte(node.kind == ARRAY);
                }
            }
        }
    }

    fn container(&mut self, at: usize, level: Level) {
        self.byte(false);
        if level != Level::Bottom {
            for child in children(self.tree, at) {
                self.node(child, Level::Within, Some(self.tree.nodes[at].kind));
            }
        }
        self.byte(true);
    }
}
