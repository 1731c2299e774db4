//! The reason for a no, by levels and with all fields, against a plain walk over the crate's own trees in
//! the order of its comparison; and yes and no against the crate's comparison and the library's.

use crate::ask;
use crate::damage::{self, Raw};
use crate::draw;
use crate::grow;
use crate::helper::{compare_encodings, NestingLevel};
use crate::library::{self, reply, Reply, Sheet, MARK_BYTE};
use crate::plain;
use crate::random::Random;
use crate::reason::Finder;
use crate::report::{expect, refusal_name, Case, Difference, Lent, Tally};
use crate::sheet::{ARRAY, TYPED_BITFIELD};
use crate::texts;
use crate::trees::{Arena, Node, Tree};

/// The most bytes of a reason, and bytes that are looked at beyond what was lent.
const MOST: usize = 8016;
const BEYOND: usize = 32;
const OUT: usize = 2 * MOST;

/// What short trees are made of: each of the words occurs, at the root and below.
const TOKENS: [&str; 19] = [
    "i", "@", "#", "b1", "b2", "b0i1", "b0s1", "b1i1", "b1s2", "^", "A", "[1", "[2", "]", "{R=", "{S=",
    "(R=", "}", ")",
];

/// Every pair of texts of up to `most` tokens that can be read.
pub fn short_inputs(most: usize) -> impl Iterator<Item = Case> {
    let read = |text: String| ask::read(&text).ok().map(|tree| Tree::from_box(&tree));
    let trees: Vec<Tree> = texts::every(&TOKENS, most).filter_map(read).collect();
    let mut random = Random::new(0);
    let count = trees.len();
    (0..count * count).map(move |pair| {
        let (a, b) = (trees[pair / count].clone(), trees[pair % count].clone());
        Case { a, b, text: String::new(), extra: random.next() }
    })
}

pub fn inputs(seed: u64, count: u64) -> impl Iterator<Item = Case> {
    draw::cases(seed, count, pair)
}

/// A tree and mostly a changed copy of it, in either order.
fn pair(random: &mut Random) -> Case {
    let manner = grow::manner(random);
    let a = grow::tree(random, manner);
    let b = match random.below(100) {
        0..=2 => a.clone(),
        3..=8 => {
            let manner = grow::manner(random);
            grow::tree(random, manner)
        }
        9..=29 => grow::mutated(random, &a),
        _ => grow::changed(random, &a),
    };
    let extra = random.next();
    let (a, b) = if random.percent(50) { (a, b) } else { (b, a) };
    Case { a, b, text: String::new(), extra }
}

/// Lengths of arrays and offsets of bitfields, of any two counts of digits.
pub fn number_inputs(seed: u64, count: u64) -> impl Iterator<Item = Case> {
    let mut random = Random::new(seed);
    (0..count).map(move |_| {
        let kind = random.pick(&[ARRAY, TYPED_BITFIELD]);
        let (a, b) = (numbered(&mut random, kind), numbered(&mut random, kind));
        Case { a, b, text: String::new(), extra: random.next() }
    })
}

fn numbered(random: &mut Random, kind: u64) -> Tree {
    let least = 10u64.pow(random.below(20) as u32);
    let number = match random.below(8) {
        0 => least - random.below(2) as u64,
        1 => u64::MAX - random.below(2) as u64,
        _ => least + random.next() % least.saturating_mul(9).min(u64::MAX - least),
    };
    let nodes = vec![Node { kind, first: number, second: 0, count: 2 }, Node { kind: 0, first: 0, second: 0, count: 1 }];
    Tree { nodes, names: Vec::new() }
}

type Measure = fn(Sheet, Sheet) -> Reply;
type Write = fn(Sheet, Sheet, &mut [u8], usize) -> Reply;

/// The calls of one comparison.
struct Operation {
    include_all: bool,
    compare: Measure,
    length_name: &'static str,
    length: Measure,
    name: &'static str,
    write: Write,
}

const OPERATIONS: [Operation; 2] = [
    Operation {
        include_all: false,
        compare: library::equivalent_to,
        length_name: "reason_len",
        length: library::reason_len,
        name: "reason",
        write: library::reason,
    },
    Operation {
        include_all: true,
        compare: library::eq,
        length_name: "reason_all_len",
        length: library::reason_all_len,
        name: "reason_all",
        write: library::reason_all,
    },
];

/// What is used again from case to case.
pub struct Check {
    a: Arena,
    b: Arena,
    lent_a: Lent,
    lent_b: Lent,
    finder: Finder,
    out: Vec<u8>,
}

impl Check {
    pub fn new() -> Check {
        Check {
            a: Arena::default(),
            b: Arena::default(),
            lent_a: Lent::default(),
            lent_b: Lent::default(),
            finder: Finder::default(),
            out: vec![MARK_BYTE; OUT],
        }
    }

    pub fn case(&mut self, case: &Case, tally: &mut Tally) -> Result<(), Difference> {
        let mut garbage = Random::new(case.extra);
        self.lent_a.fill(&case.a, &mut garbage);
        self.lent_b.fill(&case.b, &mut garbage);
        let (a, b) = (self.a.encoding(&case.a), self.b.encoding(&case.b));
        let sheets = (self.lent_a.sheet(), self.lent_b.sheet());
        for operation in &OPERATIONS {
            let yes = compare_encodings(a, b, NestingLevel::new(), operation.include_all);
            let wanted = self.finder.find(a, b, operation.include_all);
            if wanted.is_none() != yes {
                return Err("the walk over the crate's trees, and its comparison, differ".to_string());
            }
            tally.add(operation.name, wanted.map_or("yes", word));
            check(operation, sheets, wanted, &mut self.out, &mut garbage, tally)?;
        }
        self.lent_a.is_unchanged()?;
        self.lent_b.is_unchanged()?;
        if garbage.below(8) == 0 {
            self.spoilt(case, &mut garbage, tally)?;
        }
        Ok(())
    }

    /// The pair with one side spoilt, or both.
    fn spoilt(&mut self, case: &Case, garbage: &mut Random, tally: &mut Tally) -> Result<(), Difference> {
        let (mut a, mut b) = (Raw::of(&case.a), Raw::of(&case.b));
        let which = garbage.below(3);
        if which != 0 {
            a = damage::of(garbage, &case.a);
        }
        if which != 1 {
            b = damage::of(garbage, &case.b);
        }
        let verdict =
            plain::verdict_of_two(plain::verdict(&a.words, &a.names), plain::verdict(&b.words, &b.names));
        if verdict == 0 {
            return Ok(());
        }
        self.lent_a.fill_raw(&a.words, &a.names);
        self.lent_b.fill_raw(&b.words, &b.names);
        check_refused(verdict, (self.lent_a.sheet(), self.lent_b.sheet()), &mut self.out, garbage, tally)?;
        self.lent_a.is_unchanged()?;
        self.lent_b.is_unchanged()
    }
}

/// For the counts.
fn word(reason: &[u8]) -> &'static str {
    let at = reason.iter().position(|&byte| byte == b':').unwrap();
    match (at == 0, reason[at + 1]) {
        (true, b'k') => "kind, at the root",
        (true, b's') => "size, at the root",
        (true, b'o') => "offset, at the root",
        (true, b'l') => "length, at the root",
        (true, b'n') => "name, at the root",
        (true, _) => "count, at the root",
        (false, b'k') => "kind, below",
        (false, b's') => "size, below",
        (false, b'o') => "offset, below",
        (false, b'l') => "length, below",
        (false, b'n') => "name, below",
        (false, _) => "count, below",
    }
}

/// Every call of one comparison: a yes, or this reason, whose length is asked with outputs around it.
fn check(
    operation: &Operation,
    (a, b): (Sheet, Sheet),
    wanted: Option<&[u8]>,
    out: &mut [u8],
    random: &mut Random,
    tally: &mut Tally,
) -> Result<(), Difference> {
    let compared = (operation.compare)(a, b);
    expect("the library's comparison", compared, reply(0, &[wanted.is_none().into()]))?;
    let Some(reason) = wanted else {
        expect(operation.length_name, (operation.length)(a, b), reply(0, &[1, 0]))?;
        check_room(operation, (a, b), None, 0, out, tally)?;
        return check_room(operation, (a, b), None, random.below(64), out, tally);
    };
    let length = reason.len();
    expect(operation.length_name, (operation.length)(a, b), reply(0, &[0, length as u64]))?;
    if random.below(64) == 0 && length < 64 {
        for room in 0..length + 8 {
            check_room(operation, (a, b), wanted, room, out, tally)?;
        }
    }
    check_room(operation, (a, b), wanted, length, out, tally)?;
    check_room(operation, (a, b), wanted, length - 1, out, tally)?;
    check_room(operation, (a, b), wanted, random.below(length), out, tally)?;
    check_room(operation, (a, b), wanted, length + random.within(1, 20), out, tally)
}

/// Asks with an output of `room` bytes, and looks at all bytes around it.
fn check_room(
    operation: &Operation,
    (a, b): (Sheet, Sheet),
    wanted: Option<&[u8]>,
    room: usize,
    out: &mut [u8],
    tally: &mut Tally,
) -> Result<(), Difference> {
    let got = (operation.write)(a, b, out, room);
    let reason = wanted.unwrap_or(b"");
    let (answer, written) = if wanted.is_none() {
        tally.add("output", if room == 0 { "none, for a yes" } else { "some, for a yes" });
        (reply(0, &[1, 0]), 0)
    } else if room < reason.len() {
        tally.add("output", refusal_name(5));
        (reply(5, &[0, 0]), 0)
    } else {
        tally.add("output", if room == reason.len() { "just enough" } else { "room to spare" });
        (reply(0, &[0, reason.len() as u64]), reason.len())
    };
    let looked_at = room.max(reason.len()) + BEYOND;
    let bytes_are_right = out[..written] == reason[..written];
    let rest_is_left = out[written..looked_at].iter().all(|&byte| byte == MARK_BYTE);
    out[..looked_at].fill(MARK_BYTE);
    expect(operation.name, got, answer)?;
    if !bytes_are_right {
        return Err(format!("{}: other bytes than {:?}", operation.name, String::from_utf8_lossy(reason)));
    }
    if !rest_is_left {
        return Err(format!("{}: wrote beyond {written} bytes", operation.name));
    }
    Ok(())
}

/// Two lists of which one at least is no sheet, or has a bad name.
pub fn check_refused(
    verdict: u64,
    (a, b): (Sheet, Sheet),
    out: &mut [u8],
    random: &mut Random,
    tally: &mut Tally,
) -> Result<(), Difference> {
    for operation in &OPERATIONS {
        tally.add(operation.name, refusal_name(verdict));
        expect(operation.length_name, (operation.length)(a, b), reply(verdict, &[0, 0]))?;
        let got = (operation.write)(a, b, out, random.below(64));
        let is_left = out[..64 + BEYOND].iter().all(|&byte| byte == MARK_BYTE);
        out[..64 + BEYOND].fill(MARK_BYTE);
        expect(operation.name, got, reply(verdict, &[0, 0]))?;
        if !is_left {
            return Err(format!("{}: wrote though it refused", operation.name));
        }
    }
    Ok(())
}
