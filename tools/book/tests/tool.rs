//! The command itself: files, standard input, and how it fails.

mod common;

use common::{folder, run};
use std::fs;

fn check_failure(words: &[&str], input: &[u8], status: i32, what: &str) {
    let output = run(words, input);
    assert_eq!(output.status.code(), Some(status));
    assert!(output.stdout.is_empty());
    let said = String::from_utf8(output.stderr).unwrap();
    assert!(said.contains(what), "{said}");
}

#[test]
fn files_and_standard_input() {
    let specimens = folder("specimens");
    let (text, book) = (specimens.join("pdb.txt"), specimens.join("pdb.book"));
    let (text_bytes, book_bytes) = (fs::read(&text).unwrap(), fs::read(&book).unwrap());
    assert_eq!(run(&["make", text.to_str().unwrap()], b"").stdout, book_bytes);
    assert_eq!(run(&["make"], &text_bytes).stdout, book_bytes);
    let shown = run(&["show", book.to_str().unwrap()], b"");
    assert_eq!(shown.status.code(), Some(0));
    assert_eq!(run(&["show"], &book_bytes).stdout, shown.stdout);
    assert_eq!(run(&["make"], &shown.stdout).stdout, book_bytes);
}

#[test]
fn failures() {
    check_failure(&["make"], b"x64\nentry begin 1", 1, "standard input:2: expected 'end' at the end of the line");
    check_failure(&["make"], b"x64\n\xff", 1, "standard input:2: this is not text");
    check_failure(&["make", "no such file"], b"", 1, "no such file: ");
    check_failure(&["show", "no such file"], b"", 1, "no such file: ");
    check_failure(&["print"], b"", 2, "book make [FILE]");
    check_failure(&[], b"", 2, "book make [FILE]");
    check_failure(&["compare", "one"], b"", 2, "book compare A B");
    check_failure(&["compare", "one", "two", "three"], b"", 2, "book compare A B");
    check_failure(&["decode", "1", "2"], b"", 2, "book decode BEGIN END INFO [HEX..]");
    check_failure(&["decode", "arm64", "1"], b"", 2, "book decode arm64 ADDRESS SIZE [HEX..]");
}
