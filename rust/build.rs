//! With the feature `linked`: links the proved library that `rt lib` makes in crates/zombrict.

use std::path::Path;

fn main() {
    if std::env::var_os("CARGO_FEATURE_LINKED").is_none() {
        return;
    }
    let here = std::env::var("CARGO_MANIFEST_DIR").expect("set by cargo");
    let directory = Path::new(&here).join("../crates/zombrict/out");
    let library = directory.join("libzombrict.a");
    println!("cargo::rerun-if-changed={}", library.display());
    if !library.exists() {
        println!("cargo::error=no crates/zombrict/out/libzombrict.a: run `rt lib` in crates/zombrict");
    }
    println!("cargo::rustc-link-search=native={}", directory.display());
    println!("cargo::rustc-link-lib=static=zombrict");
}
