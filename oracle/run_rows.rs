//! Sizes in every row, against the driver's own (rows.rs) and against the crate where that can be asked.

use crate::ask;
use crate::damage;
use crate::draw;
use crate::grow_sizes;
use crate::library::{self, reply, Reply, Sheet};
use crate::plain;
use crate::random::Random;
use crate::report::{expect, refusal_name, Case, Difference, Lent, Tally};
use crate::rows::{self, Answer, LARGEST, ROWS, TOO_LARGE};
use crate::sheet::{INT, LONG, UNSIGNED_LONG};
use crate::trees::{Arena, Tree};

/// Row numbers that are none, such as would be one if a part of their bits were looked at.
const NO_ROWS: [u64; 8] = [4, 7, 256, 256 + 3, 1 << 32, (1 << 32) + 3, (1 << 63) + 3, u64::MAX];

/// For the counts.
const ROW_NAMES: [&str; ROWS] = ["size, row 0", "size, row 1", "size, row 2", "size, row 3"];
const ROW_3_BY_ROW_0: &str = "row 3 as row 0 with i for l";

/// What short trees are made of: each outcome occurs in each row that has it.
const TOKENS: [&str; 23] = [
    "c", "l", "L", "D", "jD", "v", "*", "b65", "b0l3", "b0L3", "[0", "[2", "[4294967295", "[2305843009213693952",
    "[4611686018427387904", "[18446744073709551615", "]", "{R=", "}", "(U=", ")", "^", "A",
];

/// Every text of up to `most` tokens that can be read.
pub fn short_inputs(most: usize) -> impl Iterator<Item = Case> {
    draw::every_tree(&TOKENS, most)
}

pub fn inputs(seed: u64, count: u64) -> impl Iterator<Item = Case> {
    draw::cases(seed, count, |random| draw::with_tree(grow_sizes::tree(random), random))
}

/// What is used again from case to case.
#[derive(Default)]
pub struct Check {
    arena: Arena,
    lent: Lent,
    with_ints: Lent,
}

impl Check {
    pub fn case(&mut self, case: &Case, tally: &mut Tally) -> Result<(), Difference> {
        let mut random = Random::new(case.extra);
        self.lent.fill(&case.a, &mut random);
        let sheet = self.lent.sheet();
        let mut replies = [reply(0, &[]); ROWS];
        for (row, reply) in replies.iter_mut().enumerate() {
            *reply = check_size(&mut self.arena, &case.a, sheet, row, tally)?;
        }
        let sized = replies.iter().filter(|(refusal, answer)| *refusal == TOO_LARGE || answer[0] == 1).count();
        if sized != 0 && sized != ROWS {
            return Err("size: in one row and not in another".to_string());
        }
        check_no_rows(sheet, random.next(), tally)?;
        self.lent.is_unchanged()?;
        self.row_3_by_row_0(&case.a, replies[0], replies[3], &mut random, tally)?;
        if random.below(4) == 0 {
            self.spoilt(&case.a, &mut random, tally)?;
        }
        Ok(())
    }

    /// Row 3 is row 0 of the tree with `i` for each `l`, and of the tree itself if that has none: the library
    /// against itself.
    fn row_3_by_row_0(
        &mut self,
        tree: &Tree,
        row_0: Reply,
        row_3: Reply,
        random: &mut Random,
        tally: &mut Tally,
    ) -> Result<(), Difference> {
        if !tree.has(LONG) {
            tally.add(ROW_3_BY_ROW_0, "no l in the tree");
            return expect(ROW_3_BY_ROW_0, row_3, row_0);
        }
        let outcome = if row_3 == row_0 { "l in the tree, as row 0" } else { "l in the tree, not as row 0" };
        tally.add(ROW_3_BY_ROW_0, outcome);
        self.with_ints.fill(&tree.with_code(INT, LONG), random);
        expect(ROW_3_BY_ROW_0, row_3, library::size(self.with_ints.sheet(), 0))?;
        self.with_ints.is_unchanged()
    }

    /// The tree's sheet with a damage or a bad name, if that is refused.
    fn spoilt(&mut self, tree: &Tree, random: &mut Random, tally: &mut Tally) -> Result<(), Difference> {
        let raw = damage::of(random, tree);
        let verdict = plain::verdict(&raw.words, &raw.names);
        if verdict == 0 {
            return Ok(());
        }
        self.lent.fill_raw(&raw.words, &raw.names);
        check_refused(verdict, self.lent.sheet(), tally)?;
        self.lent.is_unchanged()
    }
}

/// One row of a valid sheet without bad names; the library's reply.
pub fn check_size(
    arena: &mut Arena,
    tree: &Tree,
    sheet: Sheet,
    row: usize,
    tally: &mut Tally,
) -> Result<Reply, Difference> {
    let measured = rows::measure(tree, row);
    match ask::size_in(arena, tree, row, &measured) {
        None => tally.add(ROW_NAMES[row], "outside the crate's domain"),
        Some(bytes) if bytes == measured.bytes => {}
        Some(bytes) => return Err(format!("row {row}: the driver's size {:?}, the crate's {bytes:?}", measured.bytes)),
    }
    let answer = rows::handed_out(measured.bytes, row);
    count(tree, answer, measured.bytes, row, tally);
    let wanted = match answer {
        Answer::None => reply(0, &[0, 0]),
        Answer::Bytes(bytes) => reply(0, &[1, bytes]),
        Answer::Refused(number) => reply(number, &[0, 0]),
    };
    let got = library::size(sheet, row as u64);
    expect(ROW_NAMES[row], got, wanted)?;
    Ok(got)
}

/// At the limit of the row, also whether `l` and `L` are part of the size.
fn count(tree: &Tree, answer: Answer, bytes: Option<u128>, row: usize, tally: &mut Tally) {
    let outcome = match answer {
        Answer::None => "none",
        Answer::Bytes(_) => "bytes",
        Answer::Refused(number) => refusal_name(number),
    };
    tally.add(ROW_NAMES[row], outcome);
    let [outcome, with_long, with_unsigned_long] = if bytes == Some(LARGEST[row]) {
        ["bytes, the most", "bytes, the most, with l", "bytes, the most, with L"]
    } else if bytes == Some(LARGEST[row] + 1) {
        [
            "refused 06, one byte too many",
            "refused 06, one byte too many, with l",
            "refused 06, one byte too many, with L",
        ]
    } else {
        return;
    };
    tally.add(ROW_NAMES[row], outcome);
    for (code, outcome) in [(LONG, with_long), (UNSIGNED_LONG, with_unsigned_long)] {
        // With a code of one byte in its place the size is another.
        if rows::measure(&tree.with_code(0, code), row).bytes != bytes {
            tally.add(ROW_NAMES[row], outcome);
        }
    }
}

/// A valid sheet without bad names in rows that are none, and in one of any number.
fn check_no_rows(sheet: Sheet, any: u64, tally: &mut Tally) -> Result<(), Difference> {
    for row in NO_ROWS.into_iter().chain([any.max(ROWS as u64)]) {
        tally.add("size, no such row", refusal_name(rows::NO_SUCH_ROW));
        expect("size, no such row", library::size(sheet, row), reply(rows::NO_SUCH_ROW, &[0, 0]))?;
    }
    Ok(())
}

/// Lists that are no sheet, or have a bad name: that goes before the number of the row.
pub fn check_refused(verdict: u64, sheet: Sheet, tally: &mut Tally) -> Result<(), Difference> {
    for (row, name) in ROW_NAMES.into_iter().enumerate() {
        tally.add(name, refusal_name(verdict));
        expect(name, library::size(sheet, row as u64), reply(verdict, &[0, 0]))?;
    }
    for row in NO_ROWS {
        tally.add("size, no such row", refusal_name(verdict));
        expect("size, no such row", library::size(sheet, row), reply(verdict, &[0, 0]))?;
    }
    Ok(())
}
