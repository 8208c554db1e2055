//! `book decode`: unwind bytes to the text of a book. It is there where the feature `compare` is.

mod common;

use common::{folder, run, words};
use stacklines::{translate, NO_LIMIT};
use std::fs;

/// The codes of the first function of `specimens/arm64.txt`, and its text.
const CODES: &str = "04 d084 c802 e1 85 e4";
const FIRST_ARM64: &str = "arm64
entry address 0x1000 size 0x9c
  allocate 64
  save x21 at 32
  pair x19 at 16
  other
  pair x29 pre 48
  end
";

const FIRST: &str = "x64\nentry begin 0x1000 end 0x1040 info 0x5000\n  info\n    allocate 32\n    push rbx\n";

/// What `book decode` prints.
#[track_caller]
fn printed(given: &[&str], input: &str) -> String {
    let output = run(&[&["decode"], given].concat(), input.as_bytes());
    assert_eq!(String::from_utf8(output.stderr).unwrap(), "");
    assert_eq!(output.status.code(), Some(0));
    String::from_utf8(output.stdout).unwrap()
}

/// How it fails.
#[track_caller]
fn fails(given: &[&str], input: &str, status: i32, said: &str) {
    let output = run(&[&["decode"], given].concat(), input.as_bytes());
    assert_eq!(String::from_utf8(output.stderr).unwrap(), format!("{said}\n"));
    assert!(output.stdout.is_empty());
    assert_eq!(output.status.code(), Some(status));
}

#[test]
fn bytes_on_the_command_line() {
    let first = |bytes: &[&str]| printed(&[&["0x1000", "4160", "0x5000"], bytes].concat(), "02");
    assert_eq!(first(&["0105020005320130"]), FIRST);
    assert_eq!(first(&["01", "05", "02", "00", "05", "32", "01", "30"]), FIRST);
    assert_eq!(first(&["01050200", "0532", "0130"]), FIRST);
    assert_eq!(first(&["01 05 02 00", " 0532  0130 "]), FIRST);
    assert_eq!(
        printed(&["0", "0xffffffff", "1", "F9000000"], ""),
        "x64\nentry begin 0x0 end 0xffffffff info 0x1\n  info\n"
    );
}

#[test]
fn bytes_from_standard_input() {
    let input = "\n01 05 02 00      # the header\r\n\t0532 01\n30";
    assert_eq!(printed(&["4096", "0x1040", "0x5000"], input), FIRST);
}

/// What it prints makes a book, which has its line.
#[test]
fn from_bytes_to_a_line() {
    let text = printed(&["0x1000", "0x1040", "0x5000", "0105020005320130"], "");
    let book = run(&["make"], text.as_bytes()).stdout;
    assert_eq!(book, fs::read(folder("specimens").join("first.book")).unwrap());
    let line = "STACK CFI INIT 1000 40 .cfa: $rsp 48 + $rbx: .cfa 16 - ^ .ra: .cfa 8 - ^\n";
    assert_eq!(translate(&words(&book), NO_LIMIT).unwrap().as_str(), line);
}

/// A chain of two parts, with a frame register and every operation that there is.
#[test]
fn every_operation() {
    let part = "01 00 07 f5 00 64 03 00 00 03 00 68 01 00 00 0a 00 1a";
    let parent = "21 00 03 20 00 64 03 00 00 06";
    let due = "x64
entry begin 0x1000 end 0x1040 info 0x5000
  info frame rbp offset 240
    save rsi at frame 24
    set frame
    other
    machine frame
    machine frame code
  info frame rax offset 32
    save rsi at rsp 24
    undecodable
";
    assert_eq!(printed(&["0x1000", "0x1040", "0x5000", part, parent], ""), due);
}

#[test]
fn arm64_codes() {
    assert_eq!(printed(&["arm64", "0x1000", "0x9c", CODES], ""), FIRST_ARM64);
    assert_eq!(printed(&["arm64", "4096", "156", "04", "D0", "84c802E1", "85e4"], ""), FIRST_ARM64);
    assert_eq!(printed(&["arm64", "4096", "0x9c"], "04 d0 84     # sub sp; str\nc8 02 e1\n85 e4"), FIRST_ARM64);
    assert_eq!(printed(&["arm64", "0", "0xffffffff"], ""), "arm64\nentry address 0x0 size 0xffffffff\n");
    let book = run(&["make"], FIRST_ARM64.as_bytes()).stdout;
    let lines = translate(&words(&book), NO_LIMIT).unwrap();
    let specimen = fs::read_to_string(folder("specimens").join("arm64.lines")).unwrap();
    assert_eq!(lines.lines().collect::<Vec<_>>(), specimen.lines().take(5).collect::<Vec<_>>());
}

#[test]
fn every_arm64_operation() {
    let codes = "e7 6a 81 d6 c6 e6 d4 c3 d8 08 fc c1 00 e8 04";
    let due = "arm64
entry address 0x1000 size 0x40
  pair q10 pre 32
  lrpair x25 at 48
  save-next
  save x25 pre 32
  pair d8 at 64
  other
  allocate 4096
  undecodable
";
    assert_eq!(printed(&["arm64", "0x1000", "0x40", codes], ""), due);
}

#[test]
fn refused_codes() {
    let refused = |bytes: &str, said: &str| fails(&["arm64", "1", "2", bytes], "", 1, said);
    refused("d0", "refused 12: the bytes end inside a code");
    refused("04 f9 00", "refused 12: the bytes end inside a code");
    refused(&"04".repeat(1025), "refused 4: there are more than 1,024 operations");
    assert_eq!(printed(&["arm64", "1", "2", &"04".repeat(1024)], "").lines().count(), 2 + 1024);
}

#[test]
fn refused_bytes() {
    let refused = |bytes: &str, said: &str| fails(&["1", "2", "3", bytes], "01000000", 1, said);
    let short = "refused 11: the bytes end before the four header bytes or the counted slots of a part";
    let parts = "refused 4: there is no part, or more than 32";
    refused("02", "refused 10: the version of a part is not 1");
    refused("01", short);
    refused("01000100 00", short);
    refused(&"01000000".repeat(33), parts);
    refused("", parts);
    fails(&["1", "2", "3"], "", 1, parts);
}

/// Bodies that are decoded, and too long for a book.
#[test]
fn more_than_a_book() {
    let part = format!("0100ff00{}", "0030".repeat(255));
    let longest = printed(&["1", "2", "3"], &part.repeat(21));
    assert_eq!(longest.lines().count(), 2 + 21 * 256);
    assert_eq!(run(&["make"], longest.as_bytes()).stdout.len(), 4 * (4 + 4 + 21 * (3 + 3 * 255)));
    fails(&["1", "2", "3"], &part.repeat(22), 1, "refused 3: the book has more than 16,384 words");
}

#[test]
fn bad_words() {
    let bytes = "expected bytes of two hexadecimal digits each";
    fails(&["one", "2", "3", "01"], "", 2, "book decode: expected begin, not 'one'");
    fails(&["1", "0x100000000", "3", "01"], "", 2, "book decode: end is out of its range: 0x100000000");
    fails(&["1", "2", "-3", "01"], "", 2, "book decode: info is out of its range: -3");
    fails(&["arm64", "x", "2"], "", 2, "book decode: expected address, not 'x'");
    fails(&["arm64", "1", "4294967296"], "", 2, "book decode: size is out of its range: 4294967296");
    fails(&["x64", "1", "2"], "", 2, "book decode: expected begin, not 'x64'");
    fails(&["1", "2", "3", "01", "02#"], "", 2, &format!("book decode: {bytes}, not '02#'"));
    for word in ["010", "0x01", "0g", "é"] {
        fails(&["1", "2", "3", "01", word], "", 2, &format!("book decode: {bytes}, not '{word}'"));
        fails(&["1", "2", "3"], &format!("01\n{word}\n"), 1, &format!("standard input:2: {bytes}, not '{word}'"));
    }
}
