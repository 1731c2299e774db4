//! Measures types in each row of sizes that the library has.

use berzhotun::{parse, Refusal, Row};

fn cell(size: Result<Option<u64>, Refusal>) -> String {
    match size {
        Ok(Some(bytes)) => bytes.to_string(),
        Ok(None) => "none".to_string(),
        Err(refusal) => format!("refusal {}", refusal.number()),
    }
}

fn main() -> Result<(), Refusal> {
    println!(
        "{:<18} {:>12} {:>12} {:>12} {:>12}",
        "type", "AppleArm64", "X86_64", "Arm32", "Guide"
    );
    for text in [
        "l",
        "L",
        "^v",
        "D",
        "{Rate=id}",
        "{R=i^v}",
        "{R=lL}",
        "b0l3",
        "(U=vD)",
        "v",
        "[4294967296c]",
        "[1073741824l]",
        "[0[4294967296c]]",
    ] {
        let tree = parse(text.as_bytes())?;
        let [a, b, c, d] = Row::ALL.map(|row| cell(tree.size(row)));
        println!("{text:<18} {a:>12} {b:>12} {c:>12} {d:>12}");
    }
    Ok(())
}
