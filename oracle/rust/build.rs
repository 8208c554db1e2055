//! Names the file `symbolic-cfi/src/lib.rs` of the Rust source, which is compiled where it lies.

use std::path::PathBuf;
use std::{env, fs};

fn main() {
    let file = env::var("RUST_CFI").expect("the file's name in RUST_CFI, as run.sh gives it");
    let out = PathBuf::from(env::var("OUT_DIR").unwrap()).join("source.rs");
    let code = format!("#[allow(dead_code, unused)]\n#[path = {file:?}]\npub mod symbolic_cfi;\n");
    fs::write(out, code).unwrap();
    println!("cargo:rerun-if-env-changed=RUST_CFI");
    println!("cargo:rerun-if-changed={file}");
}
