//! Links the kernel's static library, which `rt lib` in `crates/c_calls` writes. With the feature `compare` it links a
//! copy of it and the library of another revision instead, which scripts/compare writes; COMPARE_FIRST, `before` or
//! `now`, says which comes first.

use std::env;

const KERNEL: (&str, &str) = ("/../crates/c_calls/out", "c_calls");
const NOW: (&str, &str) = ("/../target/compare", "now");
const BEFORE: (&str, &str) = ("/../target/compare", "before");

fn libraries() -> Vec<(&'static str, &'static str)> {
    if env::var_os("CARGO_FEATURE_COMPARE").is_none() {
        return vec![KERNEL];
    }
    println!("cargo:rerun-if-env-changed=COMPARE_FIRST");
    match env::var("COMPARE_FIRST").as_deref() {
        Ok("before") => vec![BEFORE, NOW],
        Ok("now") => vec![NOW, BEFORE],
        _ => panic!("COMPARE_FIRST must be 'before' or 'now'"),
    }
}

fn main() {
    for (folder, name) in libraries() {
        let folder = format!("{}{folder}", env!("CARGO_MANIFEST_DIR"));
        println!("cargo:rustc-link-search=native={folder}");
        println!("cargo:rustc-link-lib=static={name}");
        println!("cargo:rerun-if-changed={folder}/lib{name}.a");
    }
}
