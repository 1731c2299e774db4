//! The differential driver: the crate and Berzhotun's library side by side.
//!
//!     diff trees SEED COUNT     valid sheets: print, size, comparisons
//!     diff sheets SEED COUNT    spoilt sheets: refusals 3 and 4
//!     diff short LENGTH         every text up to that length over the meaningful bytes: the crate's readings
//!     diff reads SEED COUNT     random, well-formed and spoilt texts: the crate's readings
//!     diff match LENGTH         every text up to that length over fewer bytes, against small trees
//!     diff texts SEED COUNT     tree against text
//!     diff short-signatures LENGTH  every signature up to that length over some bytes
//!     diff signatures SEED COUNT    random, well-formed and spoilt signatures
//!     diff short-strict LENGTH  every text up to that length over some bytes: strict reading
//!     diff strict SEED COUNT    random, well-formed and spoilt texts with surplus zeros: strict reading
//!     diff short-reasons LENGTH  every pair of readable texts up to that length: the reason for a no
//!     diff reasons SEED COUNT   related pairs of trees: the reason for a no
//!     diff number-reasons SEED COUNT  numbers of every count of digits: the reason for a no
//!     diff short-rows LENGTH    every readable text up to that length: sizes in every row
//!     diff rows SEED COUNT      trees with sizes about the limits of the rows: sizes in every row
//!     diff short-layouts LENGTH  every readable text up to that length: layouts in every row
//!     diff layouts SEED COUNT   trees with sizes and offsets about the limits of the rows: layouts in every row
//!     diff all SEED COUNT       each of these, with lengths 3 to 5
//!     diff stack KIBIBYTES      the deepest trees, texts and signatures on a stack of that size
//!     diff bench                times, as ratios to the crate's
//!
//! The exit status is 0 if there was no difference, 1 if there was one, 2 if the call makes no sense.

use crate::report::run as run_all;
use crate::{bench, stack};
use crate::{
    run_layouts, run_reads, run_reasons, run_rows, run_sheets, run_signatures, run_strict, run_texts, run_trees,
};

pub fn run() -> i32 {
    let arguments: Vec<String> = std::env::args().skip(1).collect();
    let arguments: Vec<&str> = arguments.iter().map(String::as_str).collect();
    let numbers: Option<Vec<u64>> = arguments.iter().skip(1).map(|text| text.parse().ok()).collect();
    let same = match (arguments.first().copied(), numbers.as_deref()) {
        (Some("trees"), Some(&[seed, count])) => trees(seed, count),
        (Some("sheets"), Some(&[seed, count])) => sheets(seed, count),
        (Some("all"), Some(&[seed, count])) => all(seed, count),
        (Some("short"), Some(&[length])) => short(length as usize),
        (Some("reads"), Some(&[seed, count])) => reads(seed, count),
        (Some("match"), Some(&[length])) => short_match(length as usize),
        (Some("texts"), Some(&[seed, count])) => texts(seed, count),
        (Some("short-signatures"), Some(&[length])) => short_signatures(length as usize),
        (Some("signatures"), Some(&[seed, count])) => signatures(seed, count),
        (Some("short-strict"), Some(&[length])) => short_strict(length as usize),
        (Some("strict"), Some(&[seed, count])) => strict(seed, count),
        (Some("short-reasons"), Some(&[length])) => short_reasons(length as usize),
        (Some("reasons"), Some(&[seed, count])) => reasons(seed, count),
        (Some("number-reasons"), Some(&[seed, count])) => number_reasons(seed, count),
        (Some("short-rows"), Some(&[length])) => short_rows(length as usize),
        (Some("rows"), Some(&[seed, count])) => rows(seed, count),
        (Some("short-layouts"), Some(&[length])) => short_layouts(length as usize),
        (Some("layouts"), Some(&[seed, count])) => layouts(seed, count),
        (Some("stack"), Some(&[kibibytes])) => stack::run(kibibytes as usize),
        (Some("bench"), Some(&[])) => bench::run(),
        _ => {
            eprintln!("usage: diff trees|sheets|reads|texts|signatures|strict SEED COUNT");
            eprintln!("       diff reasons|number-reasons|rows|layouts|all SEED COUNT");
            eprintln!("       diff short|match|short-signatures|short-strict|short-reasons LENGTH");
            eprintln!("       diff short-rows|short-layouts LENGTH");
            eprintln!("       diff stack KIBIBYTES, diff bench");
            return 2;
        }
    };
    i32::from(!same)
}

fn all(seed: u64, count: u64) -> bool {
    // No run is left out because an earlier one found a difference.
    let mut same = trees(seed, count);
    same &= sheets(seed, count);
    same &= short(3);
    same &= reads(seed, count);
    same &= short_match(4);
    same &= texts(seed, count);
    same &= short_signatures(3);
    same &= signatures(seed, count);
    same &= short_strict(4);
    same &= strict(seed, count);
    same &= short_reasons(4);
    same &= reasons(seed, count);
    same &= number_reasons(seed, count);
    same &= short_rows(5);
    same &= rows(seed, count);
    same &= short_layouts(5);
    same &= layouts(seed, count);
    same
}

fn trees(seed: u64, count: u64) -> bool {
    let mut check = run_trees::Check::new();
    run_all("trees", run_trees::inputs(seed, count), |case, tally| check.case(case, tally))
}

fn sheets(seed: u64, count: u64) -> bool {
    let mut check = run_sheets::Check::new();
    run_all("sheets", run_sheets::inputs(seed, count), |case, tally| check.case(case, tally))
}

fn short(length: usize) -> bool {
    let mut check = run_reads::Check::new();
    run_all("short", run_reads::short_inputs(length), |case, tally| check.case(case, tally))
}

fn short_match(length: usize) -> bool {
    let mut check = run_texts::ShortCheck::new();
    run_all("match", run_texts::short_inputs(length), |case, tally| check.case(case, tally))
}

fn reads(seed: u64, count: u64) -> bool {
    let mut check = run_reads::Check::new();
    run_all("reads", run_reads::inputs(seed, count), |case, tally| check.case(case, tally))
}

fn texts(seed: u64, count: u64) -> bool {
    let mut check = run_texts::Check::new();
    run_all("texts", run_texts::inputs(seed, count), |case, tally| check.case(case, tally))
}

fn short_signatures(length: usize) -> bool {
    let mut check = run_signatures::Check::new();
    let inputs = run_signatures::short_inputs(length);
    run_all("short-signatures", inputs, |case, tally| check.case(case, tally))
}

fn signatures(seed: u64, count: u64) -> bool {
    let mut check = run_signatures::Check::new();
    run_all("signatures", run_signatures::inputs(seed, count), |case, tally| check.case(case, tally))
}

fn short_strict(length: usize) -> bool {
    let mut check = run_strict::Check::default();
    run_all("short-strict", run_strict::short_inputs(length), |case, tally| check.case(case, tally))
}

fn strict(seed: u64, count: u64) -> bool {
    let mut check = run_strict::Check::default();
    run_all("strict", run_strict::inputs(seed, count), |case, tally| check.case(case, tally))
}

fn short_reasons(length: usize) -> bool {
    let mut check = run_reasons::Check::new();
    run_all("short-reasons", run_reasons::short_inputs(length), |case, tally| check.case(case, tally))
}

fn reasons(seed: u64, count: u64) -> bool {
    let mut check = run_reasons::Check::new();
    run_all("reasons", run_reasons::inputs(seed, count), |case, tally| check.case(case, tally))
}

fn number_reasons(seed: u64, count: u64) -> bool {
    let mut check = run_reasons::Check::new();
    run_all("number-reasons", run_reasons::number_inputs(seed, count), |case, tally| check.case(case, tally))
}

fn short_rows(length: usize) -> bool {
    let mut check = run_rows::Check::default();
    run_all("short-rows", run_rows::short_inputs(length), |case, tally| check.case(case, tally))
}

fn rows(seed: u64, count: u64) -> bool {
    let mut check = run_rows::Check::default();
    run_all("rows", run_rows::inputs(seed, count), |case, tally| check.case(case, tally))
}

fn short_layouts(length: usize) -> bool {
    let mut check = run_layouts::Check::new();
    run_all("short-layouts", run_layouts::short_inputs(length), |case, tally| check.case(case, tally))
}

fn layouts(seed: u64, count: u64) -> bool {
    let mut check = run_layouts::Check::new();
    run_all("layouts", run_layouts::inputs(seed, count), |case, tally| check.case(case, tally))
}
