//! Names the file `symbolic-common/src/types.rs` of the Rust source, which is compiled where it lies.

use std::path::PathBuf;
use std::{env, fs};

fn main() {
    let file = env::var("RUST_TYPES").expect("the file's name in RUST_TYPES, as run.sh gives it");
    let out = PathBuf::from(env::var("OUT_DIR").unwrap()).join("source.rs");
    let code = format!("#[path = {file:?}]\nmod types;\n");
    fs::write(out, code).unwrap();
    println!("cargo:rerun-if-env-changed=RUST_TYPES");
    println!("cargo:rerun-if-changed={file}");
}
