//! Finds libberzhotun.a: in BERZHOTUN_LIB_DIR if that is set, else where `rt lib` in crates/berzhotun puts it.

use std::env;
use std::path::PathBuf;

fn main() {
    println!("cargo:rerun-if-env-changed=BERZHOTUN_LIB_DIR");
    let here =
        PathBuf::from(env::var("CARGO_MANIFEST_DIR").expect("cargo names the crate's folder"));
    let folder = match env::var_os("BERZHOTUN_LIB_DIR") {
        Some(folder) => PathBuf::from(folder),
        None => here.join("../../crates/berzhotun/out"),
    };
    let archive = folder.join("libberzhotun.a");
    assert!(
        archive.is_file(),
        "no libberzhotun.a: run `rt lib` in crates/berzhotun"
    );
    println!("cargo:rerun-if-changed={}", archive.display());
    println!("cargo:rustc-link-search=native={}", folder.display());
    println!("cargo:rustc-link-lib=static=berzhotun");
}
