//! Takes a method's signature of 64-bit Apple ARM apart, and measures each of its types.

use berzhotun::{parse, parse_signature, Refusal, Row};

fn show(signature: &str) -> Result<(), Refusal> {
    println!("{signature}");
    for entry in parse_signature(signature.as_bytes())? {
        let size = parse(entry.encoding)?
            .size(Row::AppleArm64)?
            .map_or("no size".to_string(), |bytes| format!("{bytes} bytes"));
        let encoding = String::from_utf8_lossy(entry.encoding);
        println!("  {encoding:<12} {size:<9} {:>2}", entry.offset);
    }
    Ok(())
}

fn main() {
    for signature in [
        "d24@0:8i16",
        "v32@0:8r^{Rate=id}16Q24",
        "{Rate=id}24@0:8[4i]16",
        "i16@0:8{a-b=i}16",
        "v24@0:8@16i",
        "v24@0:8{R=5}0",
    ] {
        if let Err(refusal) = show(signature) {
            println!("  refusal {}: {refusal}", refusal.number());
        }
    }
}
