//! Valid sheets without bad names, against the crate: printed length, print, size, comparisons.

use crate::ask;
use crate::draw;
use crate::grow;
use crate::library::{self, reply, Sheet, MARK_BYTE};
use crate::plain;
use crate::random::Random;
use crate::report::{expect, Case, Difference, Lent, Tally};
use crate::run_rows;
use crate::sheet::{MOST_NAME_BYTES, MOST_NODES};
use crate::trees::{Arena, Tree};

/// Above this many steps the crate's own array printing is not asked, but its Display.
const MOST_STEPS: u64 = 30_000;
/// Bytes that are looked at beyond what was lent.
const BEYOND: usize = 32;
/// The longest print is below this.
const OUT: usize = 1 << 17;

pub fn inputs(seed: u64, count: u64) -> impl Iterator<Item = Case> {
    draw::cases(seed, count, pair)
}

/// Two trees that are related more often than not.
fn pair(random: &mut Random) -> Case {
    let manner = grow::manner(random);
    let a = grow::tree(random, manner);
    let b = if random.percent(95) {
        grow::mutated(random, &a)
    } else {
        let manner = grow::manner(random);
        grow::tree(random, manner)
    };
    Case { a, b, text: String::new(), extra: random.next() }
}

/// What is used again from case to case.
pub struct Check {
    a: Arena,
    b: Arena,
    lent_a: Lent,
    lent_b: Lent,
    out: Vec<u8>,
}

impl Check {
    pub fn new() -> Check {
        let out = vec![MARK_BYTE; OUT];
        Check {
            a: Arena::default(),
            b: Arena::default(),
            lent_a: Lent::default(),
            lent_b: Lent::default(),
            out,
        }
    }

    pub fn case(&mut self, case: &Case, tally: &mut Tally) -> Result<(), Difference> {
        let mut garbage = Random::new(case.extra);
        self.lent_a.fill(&case.a, &mut garbage);
        self.lent_b.fill(&case.b, &mut garbage);
        count_shape(&case.a, tally);
        check_print(&mut self.a, &case.a, self.lent_a.sheet(), &mut self.out, &mut garbage, tally)?;
        run_rows::check_size(&mut self.a, &case.a, self.lent_a.sheet(), 0, tally)?;
        check_print(&mut self.b, &case.b, self.lent_b.sheet(), &mut self.out, &mut garbage, tally)?;
        run_rows::check_size(&mut self.b, &case.b, self.lent_b.sheet(), 0, tally)?;
        self.compare(case, tally)?;
        self.lent_a.is_unchanged()?;
        self.lent_b.is_unchanged()
    }

    /// Every comparison, both ways round.
    fn compare(&mut self, case: &Case, tally: &mut Tally) -> Result<(), Difference> {
        let (sheet_a, sheet_b) = (self.lent_a.sheet(), self.lent_b.sheet());
        let (a, b) = (self.a.encoding(&case.a), self.b.encoding(&case.b));
        let (a_box, b_box) = (case.a.to_box(), case.b.to_box());

        let yes = a.equivalent_to(b);
        tally.yes_no("equivalent_to", yes);
        expect("equivalent_to", library::equivalent_to(sheet_a, sheet_b), reply(0, &[yes.into()]))?;
        let back = b.equivalent_to(a);
        expect("equivalent_to, swapped", library::equivalent_to(sheet_b, sheet_a), reply(0, &[back.into()]))?;

        let yes = a.equivalent_to_box(&b_box);
        tally.yes_no("equivalent_to_box", yes);
        expect("equivalent_to_box", library::equivalent_to_box(sheet_a, sheet_b), reply(0, &[yes.into()]))?;
        let back = b.equivalent_to_box(&a_box);
        expect(
            "equivalent_to_box, swapped",
            library::equivalent_to_box(sheet_b, sheet_a),
            reply(0, &[back.into()]),
        )?;

        let (all, boxed) = ask::equal(a, &a_box, b, &b_box);
        let outcome = match (all, yes) {
            (true, _) => "yes",
            (false, true) => "no, though equivalent",
            (false, false) => "no",
        };
        tally.add("eq", outcome);
        expect("eq", library::eq(sheet_a, sheet_b), reply(0, &[all.into()]))?;
        expect("eq, box first", library::eq(sheet_a, sheet_b), reply(0, &[boxed.into()]))?;
        let (all, boxed) = ask::equal(b, &b_box, a, &a_box);
        expect("eq, swapped", library::eq(sheet_b, sheet_a), reply(0, &[all.into()]))?;
        expect("eq, swapped, box first", library::eq(sheet_b, sheet_a), reply(0, &[boxed.into()]))
    }
}

fn count_shape(tree: &Tree, tally: &mut Tally) {
    tally.yes_no("tree is sound", plain::is_sound(tree));
    let nodes = match tree.nodes.len() {
        1 => "1",
        2..=10 => "2 to 10",
        11..=100 => "11 to 100",
        101..=1000 => "101 to 1,000",
        1001..=2000 => "1,001 to 2,000",
        _ => "2,001",
    };
    tally.add("nodes", nodes);
    assert!(tree.nodes.len() as u64 <= MOST_NODES && tree.names.len() as u64 <= MOST_NAME_BYTES);
}

pub fn check_print(
    arena: &mut Arena,
    tree: &Tree,
    sheet: Sheet,
    out: &mut [u8],
    garbage: &mut Random,
    tally: &mut Tally,
) -> Result<(), Difference> {
    let made = arena.encoding(tree);
    let length = ask::printed_length(made);
    expect("static_encoding_str_len", library::static_encoding_str_len(sheet), reply(0, &[length as u64]))?;

    let text = ask::displayed(made);
    match ask::printed(made, tree, MOST_STEPS) {
        Some(array) if array == text => tally.add("print", "by the crate's array"),
        Some(_) => return Err("the crate's array and its Display differ".to_string()),
        None => tally.add("print", "by the crate's Display"),
    }
    check_room(sheet, out, &text, length, tally)?;
    check_room(sheet, out, &text, length + garbage.within(1, 20), tally)?;
    if length > 0 {
        check_room(sheet, out, &text, length - 1, tally)?;
        check_room(sheet, out, &text, garbage.below(length), tally)?;
    }
    Ok(())
}

/// Prints into an output of `room` bytes and looks at all bytes around it.
fn check_room(
    sheet: Sheet,
    out: &mut [u8],
    text: &[u8],
    room: usize,
    tally: &mut Tally,
) -> Result<(), Difference> {
    let got = library::static_encoding_str_array(sheet, out, room);
    let (wanted, written) = if room < text.len() {
        tally.add("print", "refused 05");
        (reply(5, &[0]), 0)
    } else {
        tally.add("print", if room == text.len() { "room just enough" } else { "room to spare" });
        (reply(0, &[text.len() as u64]), text.len())
    };
    let looked_at = room.max(text.len()) + BEYOND;
    let bytes_are_right = out[..written] == text[..written];
    let rest_is_left = out[written..looked_at].iter().all(|&b| b == MARK_BYTE);
    out[..looked_at].fill(MARK_BYTE);
    expect("static_encoding_str_array", got, wanted)?;
    if !bytes_are_right {
        return Err("static_encoding_str_array: other bytes".to_string());
    }
    if !rest_is_left {
        return Err(format!("static_encoding_str_array: wrote beyond {written} bytes"));
    }
    Ok(())
}
