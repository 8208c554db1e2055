//! Files of the repository, words of bytes, and the command.
#![allow(dead_code)]

use std::fs;
use std::io::Write;
use std::path::{Path, PathBuf};
use std::process::{Command, Output, Stdio};

/// The repository's folder of this name.
pub fn folder(name: &str) -> PathBuf {
    Path::new(env!("CARGO_MANIFEST_DIR")).join("../..").join(name)
}

/// The files of a folder with this ending, by name.
pub fn files(name: &str, ending: &str) -> Vec<PathBuf> {
    let listed = fs::read_dir(folder(name)).expect("the folder is there");
    let paths = listed.map(|file| file.expect("a file").path());
    let mut files: Vec<PathBuf> = paths.filter(|path| path.extension().is_some_and(|e| e == ending)).collect();
    files.sort();
    files
}

pub fn words(bytes: &[u8]) -> Vec<u32> {
    let whole = bytes.chunks_exact(4);
    assert!(whole.remainder().is_empty());
    whole.map(|word| u32::from_le_bytes(word.try_into().unwrap())).collect()
}

/// Runs the command with this standard input.
pub fn run(words: &[&str], input: &[u8]) -> Output {
    let mut child = Command::new(env!("CARGO_BIN_EXE_book"))
        .args(words)
        .stdin(Stdio::piped())
        .stdout(Stdio::piped())
        .stderr(Stdio::piped())
        .spawn()
        .unwrap();
    // A command that fails may not read its input.
    let _ = child.stdin.take().unwrap().write_all(input);
    child.wait_with_output().unwrap()
}
