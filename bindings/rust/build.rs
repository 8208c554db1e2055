//! Links `libstacklines.a` from the folder STACKLINES_LIB, by default the one that `make lib` writes to.

use std::env;
use std::path::{Path, PathBuf};
use std::process::exit;

fn main() {
    println!("cargo:rerun-if-env-changed=STACKLINES_LIB");
    let folder = match env::var_os("STACKLINES_LIB") {
        Some(folder) => PathBuf::from(folder),
        None => Path::new(&env::var_os("CARGO_MANIFEST_DIR").expect("cargo sets it")).join("../../target/staticlib"),
    };
    let archive = folder.join("libstacklines.a");
    println!("cargo:rerun-if-changed={}", archive.display());
    if !archive.is_file() {
        eprintln!("stacklines: there is no {}", archive.display());
        eprintln!("Run `make lib` in the repository, or set STACKLINES_LIB to the folder that holds libstacklines.a.");
        exit(1);
    }
    let folder = folder.canonicalize().expect("the folder is there");
    println!("cargo:rustc-link-search=native={}", folder.display());
    println!("cargo:rustc-link-lib=static=stacklines");
}
