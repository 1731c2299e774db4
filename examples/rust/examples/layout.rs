//! Lays records out in each row of sizes that the library has: where each field lies, and where nothing does.

use berzhotun::{parse, Layout, Refusal, Row};

fn show(row: Row, layout: Result<Option<Layout>, Refusal>) {
    let name = format!("{row:?}");
    match layout {
        Ok(Some(layout)) => {
            let fields = layout.fields().iter();
            let offsets: Vec<String> = fields
                .map(|&node| layout.offsets()[node].to_string())
                .collect();
            println!(
                "  {name:<11} {} bytes, alignment {}, fields at {}",
                layout.bytes,
                layout.alignment,
                offsets.join(" ")
            );
        }
        Ok(None) => println!("  {name:<11} none"),
        Err(refusal) => println!("  {name:<11} refusal {}: {refusal}", refusal.number()),
    }
}

fn main() -> Result<(), Refusal> {
    for text in [
        "{Rate=id}",
        "{Band=c{Rate=id}s^v}",
        "{R=cDlc}",
        "{R=c(U=jf[9c])c}",
        "(U=vi)",
        "{R=c^{S=b3}b3}",
        "{R=[4294967295c]i}",
    ] {
        println!("{text}");
        let tree = parse(text.as_bytes())?;
        for row in Row::ALL {
            show(row, tree.layout(row));
        }
    }
    Ok(())
}
