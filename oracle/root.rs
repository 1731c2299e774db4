//! Only module declarations: the five files of objc2-encode 4.1.0 as they are, and our own.
//! The build script puts all of them side by side in a scratch folder (see README.md).

extern crate alloc;

// The crate's files. They are not written here; `build` takes them from the folder it is given.
#[allow(dead_code)]
mod encoding;
#[allow(dead_code)]
mod encoding_box;
#[allow(dead_code)]
mod helper;
#[allow(dead_code)]
mod parse;
#[allow(dead_code, unused_assignments)]
mod static_str;

pub use encoding::Encoding;
pub use encoding_box::EncodingBox;
pub use parse::ParseError;

// Ours. Not every program uses all of the shared ones.
#[allow(dead_code)]
mod ask;
#[allow(dead_code)]
mod layout;
#[allow(dead_code)]
mod plain;
#[allow(dead_code)]
mod reason;
#[allow(dead_code)]
mod rows;
#[allow(dead_code)]
mod sheet;
#[allow(dead_code)]
mod surplus;
#[allow(dead_code)]
mod trees;

#[cfg(not(diff))]
mod program;

#[cfg(diff)]
mod bench;
#[cfg(diff)]
mod damage;
#[cfg(diff)]
mod diff;
#[cfg(diff)]
mod draw;
#[cfg(diff)]
mod grow;
#[cfg(diff)]
mod grow_layouts;
#[cfg(diff)]
mod grow_sizes;
#[cfg(diff)]
mod library;
#[cfg(diff)]
mod plain_layout;
#[cfg(diff)]
mod random;
#[cfg(diff)]
mod report;
#[cfg(diff)]
mod run_layouts;
#[cfg(diff)]
mod run_reads;
#[cfg(diff)]
mod run_reasons;
#[cfg(diff)]
mod run_rows;
#[cfg(diff)]
mod run_sheets;
#[cfg(diff)]
mod run_signatures;
#[cfg(diff)]
mod run_strict;
#[cfg(diff)]
mod run_texts;
#[cfg(diff)]
mod run_trees;
#[cfg(diff)]
mod stack;
#[cfg(diff)]
mod texts;

// A tree of 2,001 nested nodes is walked by recursion in the crate.
const STACK: usize = 1 << 30;

fn main() {
    #[cfg(not(diff))]
    let run = program::run;
    #[cfg(diff)]
    let run = diff::run;
    let thread = std::thread::Builder::new().stack_size(STACK).spawn(run).expect("a thread");
    std::process::exit(thread.join().unwrap_or(2));
}
