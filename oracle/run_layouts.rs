//! Layouts in every row, against the driver's own (layout.rs) and a plain pass over the crate's trees.

use crate::damage;
use crate::draw;
use crate::grow_layouts;
use crate::layout::{self, Answer, Places, WorkedOut};
use crate::library::{self, reply, Sheet, MARK};
use crate::plain;
use crate::plain_layout::{self, Refusal};
use crate::random::Random;
use crate::report::{expect, refusal_name, Case, Difference, Lent, Tally};
use crate::rows::{self, LARGEST, NO_SUCH_ROW, ROWS, TOO_LARGE};
use crate::sheet::{BITFIELD, MOST_NODES, POINTER, TYPED_BITFIELD};
use crate::trees::Tree;
use crate::EncodingBox;

/// Row numbers that are none, such as would be one if a part of their bits were looked at.
const NO_ROWS: [u64; 6] = [4, 7, 256 + 3, 1 << 32, (1 << 63) + 3, u64::MAX];

/// For the counts.
const ROW_NAMES: [&str; ROWS] = ["layout, row 0", "layout, row 1", "layout, row 2", "layout, row 3"];
const NO_ROW: &str = "layout, no such row";
const LIST: &str = "list";

/// Numbers that are looked at beyond what was lent.
const BEYOND: usize = 8;
const MOST_ROOM: usize = MOST_NODES as usize + 64;

/// What short trees are made of: each outcome occurs in each row that has it.
const TOKENS: [&str; 20] = [
    "c", "s", "q", "l", "D", "jD", "v", "b3", "b0i3", "[0", "[3", "[4294967295", "[18446744073709551615", "]",
    "{R=", "}", "(U=", ")", "^", "A",
];

/// Every text of up to `most` tokens that can be read.
pub fn short_inputs(most: usize) -> impl Iterator<Item = Case> {
    draw::every_tree(&TOKENS, most)
}

pub fn inputs(seed: u64, count: u64) -> impl Iterator<Item = Case> {
    draw::cases(seed, count, |random| draw::with_tree(grow_layouts::tree(random), random))
}

/// What is used again from case to case.
pub struct Check {
    lent: Lent,
    list: Vec<u64>,
    plain_offsets: Vec<u64>,
}

impl Check {
    pub fn new() -> Check {
        Check { lent: Lent::default(), list: vec![MARK; MOST_ROOM + BEYOND], plain_offsets: Vec::new() }
    }

    pub fn case(&mut self, case: &Case, tally: &mut Tally) -> Result<(), Difference> {
        let mut random = Random::new(case.extra);
        self.lent.fill(&case.a, &mut random);
        let boxed = (random.below(4) == 0).then(|| case.a.to_box());
        for row in 0..ROWS {
            let worked_out = layout::work_out(&case.a, row);
            let answer = layout::handed_out(&worked_out, row);
            count(&case.a, &worked_out, &answer, row, tally);
            not_below_size(&case.a, &worked_out, row)?;
            if let Some(boxed) = &boxed {
                self.same_as_plain(boxed, row, &answer)?;
            }
            self.rooms(&case.a, row, &answer, &mut random, tally)?;
        }
        self.no_rows(&case.a, &mut random, tally)?;
        self.lent.is_unchanged()?;
        if random.below(4) == 0 {
            self.spoilt(&case.a, &mut random, tally)?;
        }
        Ok(())
    }

    /// The plain pass of the benchmark answers the same.
    fn same_as_plain(&mut self, boxed: &EncodingBox, row: usize, answer: &Answer) -> Result<(), Difference> {
        let plain = match plain_layout::layout(boxed, row, &mut self.plain_offsets) {
            Ok(None) => Answer::None,
            Ok(Some((bytes, alignment))) => {
                let offsets = self.plain_offsets.clone();
                Answer::Layout(layout::Layout { bytes, alignment, offsets })
            }
            Err(Refusal::NoSuchRow) => Answer::Refused(NO_SUCH_ROW, 0),
            Err(Refusal::BitField(at)) => Answer::Refused(layout::BIT_FIELD_IN_LAYOUT, at as u64),
            Err(Refusal::TooLarge) => Answer::Refused(TOO_LARGE, 0),
        };
        if plain == *answer {
            Ok(())
        } else {
            Err(format!("row {row}: the driver's layout {answer:?}, the plain pass's {plain:?}"))
        }
    }

    /// Lists of just the needed length, too short by one and by more, and longer.
    fn rooms(
        &mut self,
        tree: &Tree,
        row: usize,
        answer: &Answer,
        random: &mut Random,
        tally: &mut Tally,
    ) -> Result<(), Difference> {
        let nodes = tree.nodes.len();
        let too_short = Answer::Refused(layout::LIST_TOO_SHORT, 0);
        self.one(ROW_NAMES[row], row as u64, nodes, answer)?;
        let longer = nodes + random.within(1, 60);
        self.one(ROW_NAMES[row], row as u64, longer, answer)?;
        for room in [nodes - 1, random.below(nodes)] {
            self.one(ROW_NAMES[row], row as u64, room, &too_short)?;
        }
        let outcome = match answer {
            Answer::Layout(_) => ["refused 02, before a layout", "just enough and more, a layout"],
            Answer::None => ["refused 02, before none", "just enough and more, none"],
            Answer::Refused(TOO_LARGE, _) => ["refused 02, before 06", "just enough and more, refused 06"],
            Answer::Refused(..) => ["refused 02, before 21", "just enough and more, refused 21"],
        };
        outcome.into_iter().for_each(|outcome| tally.add(LIST, outcome));
        Ok(())
    }

    /// A row that is none goes before a list that is too short and all that comes after.
    fn no_rows(&mut self, tree: &Tree, random: &mut Random, tally: &mut Tally) -> Result<(), Difference> {
        let nodes = tree.nodes.len();
        for row in NO_ROWS.into_iter().chain([random.next().max(ROWS as u64)]) {
            for room in [nodes, random.below(nodes)] {
                tally.add(NO_ROW, refusal_name(NO_SUCH_ROW));
                self.one(NO_ROW, row, room, &Answer::Refused(NO_SUCH_ROW, 0))?;
            }
        }
        Ok(())
    }

    /// The tree's sheet with a damage or a bad name, if that is refused.
    fn spoilt(&mut self, tree: &Tree, random: &mut Random, tally: &mut Tally) -> Result<(), Difference> {
        let raw = damage::of(random, tree);
        let verdict = plain::verdict(&raw.words, &raw.names);
        if verdict == 0 {
            return Ok(());
        }
        self.lent.fill_raw(&raw.words, &raw.names);
        check_refused(verdict, self.lent.sheet(), &mut self.list, random, tally)?;
        self.lent.is_unchanged()
    }

    fn one(&mut self, what: &str, row: u64, room: usize, answer: &Answer) -> Result<(), Difference> {
        check_room(what, self.lent.sheet(), row, &mut self.list, room, answer)
    }
}

/// The padded size is never below the size of N5, and there is one wherever there is a layout.
fn not_below_size(tree: &Tree, worked_out: &WorkedOut, row: usize) -> Result<(), Difference> {
    let WorkedOut::Places(places) = worked_out else { return Ok(()) };
    match rows::measure(tree, row).bytes {
        Some(bytes) if bytes.min(places.bytes) == bytes || bytes > LARGEST[row] => Ok(()),
        bytes => Err(format!("row {row}: a padded size of {}, and without padding {bytes:?}", places.bytes)),
    }
}

/// Asks with a list of `room` numbers, and looks at all numbers around it.
fn check_room(
    what: &str,
    sheet: Sheet,
    row: u64,
    list: &mut [u64],
    room: usize,
    answer: &Answer,
) -> Result<(), Difference> {
    let got = library::layout(sheet, row, list, room);
    let (wanted, written): (_, &[u64]) = match answer {
        Answer::Layout(layout) => (reply(0, &[1, layout.bytes, layout.alignment]), &layout.offsets),
        Answer::None => (reply(0, &[0, 0, 0]), &[]),
        Answer::Refused(number, node) => (reply(*number, &[*node, 0, 0]), &[]),
    };
    let looked_at = &mut list[..room.max(written.len()) + BEYOND];
    let numbers_are_right = looked_at[..written.len()] == *written;
    let rest_is_left = looked_at[written.len()..].iter().all(|&number| number == MARK);
    looked_at.fill(MARK);
    expect(what, got, wanted)?;
    if !numbers_are_right {
        return Err(format!("{what}: other numbers than {written:?}"));
    }
    if !rest_is_left {
        return Err(format!("{what}: wrote beyond {} numbers", written.len()));
    }
    Ok(())
}

/// Lists that are no sheet, or have a bad name: that goes before the row and the list of offsets.
pub fn check_refused(
    verdict: u64,
    sheet: Sheet,
    list: &mut [u64],
    random: &mut Random,
    tally: &mut Tally,
) -> Result<(), Difference> {
    let rows = (0..ROWS as u64).zip(ROW_NAMES).chain([(random.pick(&NO_ROWS), NO_ROW)]);
    for (row, name) in rows {
        tally.add(name, refusal_name(verdict));
        for room in [0, random.below(64)] {
            check_room(name, sheet, row, list, room, &Answer::Refused(verdict, 0))?;
        }
    }
    Ok(())
}

/// An outcome in its row; for refusal 21 also where the bitfield stands, for sizes and offsets how near they are to
/// the row's limit.
fn count(tree: &Tree, worked_out: &WorkedOut, answer: &Answer, row: usize, tally: &mut Tally) {
    let outcome = match answer {
        Answer::Layout(_) => "a layout",
        Answer::None => "none",
        Answer::Refused(number, _) => refusal_name(*number),
    };
    tally.add(ROW_NAMES[row], outcome);
    match worked_out {
        WorkedOut::BitField(at) => count_bitfield(tree, *at, tally),
        WorkedOut::NoSize => {}
        WorkedOut::Places(places) => count_places(tree, places, row, tally),
    }
}

fn count_bitfield(tree: &Tree, at: usize, tally: &mut Tally) {
    let bitfields = |node: &&crate::trees::Node| matches!(node.kind, BITFIELD | TYPED_BITFIELD);
    let typed = tree.nodes[at].kind == TYPED_BITFIELD;
    let outcome = match (at == 0, typed) {
        (true, false) => "refused 21, the root",
        (true, true) => "refused 21, the root, with a type",
        (false, false) => "refused 21, below",
        (false, true) => "refused 21, below, with a type",
    };
    tally.add("bitfield", outcome);
    if tree.nodes[..at].iter().filter(bitfields).count() > 0 {
        tally.add("bitfield", "refused 21, after one not laid out");
    }
    if tree.nodes[at + 1..].iter().filter(bitfields).count() > 0 {
        tally.add("bitfield", "refused 21, before another");
    }
}

fn count_places(tree: &Tree, places: &Places, row: usize, tally: &mut Tally) {
    let (bytes, offset) = (places.bytes, places.largest_offset());
    let limit = LARGEST[row];
    let outcome = match (bytes > limit, offset > limit) {
        (true, true) => "refused 06, by size and offset",
        (true, false) => "refused 06, by the size alone",
        (false, true) => "refused 06, by an offset alone",
        _ if tree.has(POINTER) => "a layout, with a pointer",
        _ => "a layout, without pointers",
    };
    tally.add(ROW_NAMES[row], outcome);
    for (number, most, too_many) in [
        (bytes, "size, the most", "size, one byte too many"),
        (offset, "offset, the most", "offset, one byte too many"),
    ] {
        if number == limit {
            tally.add(ROW_NAMES[row], most);
        } else if number == limit + 1 {
            tally.add(ROW_NAMES[row], too_many);
        }
    }
}
