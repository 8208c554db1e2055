//! Links the port's archive: `libstacklines.a` in LIBDIR, by default where `make lib` writes it. Where LIBDIR holds a
//! `libstacklines.so`, that is taken, and looked for again at each run.

use std::env;
use std::path::PathBuf;

fn main() {
    let root = PathBuf::from(env::var("CARGO_MANIFEST_DIR").unwrap()).join("../..");
    let dir = env::var("LIBDIR").map_or_else(|_| root.join("target/staticlib"), PathBuf::from);
    let dir = dir.canonicalize().expect("no folder LIBDIR");
    println!("cargo:rustc-link-search=native={}", dir.display());
    let kind = if dir.join("libstacklines.so").exists() { "dylib" } else { "static" };
    println!("cargo:rustc-link-lib={kind}=stacklines");
    println!("cargo:rerun-if-env-changed=LIBDIR");
    println!("cargo:rerun-if-changed={}", dir.join("libstacklines.a").display());
}
