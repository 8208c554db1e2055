//! `book compare` on files. It is there where the feature `compare` is: `cargo test --offline --all-features`.

mod common;

use common::{folder, run};
use std::fs;
use std::path::Path;

const FIRST: &str = "entry begin 0x1000 end 0x1040 info 0x5000\n info\n  allocate 32\n  push rbx\n";
const SECOND: &str = "entry begin 0x2000 end 0x2040 info 0x5000\n info\n";
const FIRST_LINE: &str = "STACK CFI INIT 1000 40 .cfa: $rsp 48 + $rbx: .cfa 16 - ^ .ra: .cfa 8 - ^\n";
const SECOND_LINE: &str = "STACK CFI INIT 2000 40 .cfa: $rsp 8 + .ra: .cfa 8 - ^\n";

/// A file of these bytes, for this process alone.
fn file(name: &str, bytes: &[u8]) -> String {
    let path = Path::new(env!("CARGO_TARGET_TMPDIR")).join(format!("{name}.{}", std::process::id()));
    fs::write(&path, bytes).unwrap();
    path.to_str().unwrap().to_string()
}

fn book(name: &str, text: &str) -> String {
    file(name, &book_form::make(text).unwrap())
}

/// What `book compare` prints and says on standard error, and its status.
#[track_caller]
fn check(old: &str, new: &str, status: i32, printed: &str, said: &str) {
    let output = run(&["compare", old, new], b"");
    assert_eq!(String::from_utf8(output.stdout).unwrap(), printed);
    assert_eq!(String::from_utf8(output.stderr).unwrap(), said);
    assert_eq!(output.status.code(), Some(status));
}

#[test]
fn same() {
    let one = book("same-one", &format!("x64\n{FIRST}{SECOND}"));
    check(&one, &one, 0, "same records\n", "");
    // Another book with the same text: the allocation in two, and a skipped entry.
    let first = FIRST.replace("allocate 32", "allocate 16\n  allocate 16");
    let skipped = "entry begin 9 end 8 info 0\n info\n";
    let other = book("same-other", &format!("x64\n{first}{skipped}{SECOND}"));
    check(&one, &other, 0, "same records\n", "");
    let none = book("same-none", "x64\n");
    check(&none, &none, 0, "same records\n", "");
}

#[test]
fn different() {
    let one = book("different-one", &format!("x64\n{FIRST}"));
    let two = book("different-two", &format!("x64\n{FIRST}{SECOND}"));
    let longer = book("different-longer", &format!("x64\n{}{SECOND}", FIRST.replace("32", "40")));
    let swapped = book("different-swapped", &format!("x64\n{SECOND}{FIRST}"));
    check(&one, &two, 1, &format!("added 2000 40\n+ {SECOND_LINE}1 added, 0 removed, 0 changed\n"), "");
    check(&two, &one, 1, &format!("removed 2000 40\n- {SECOND_LINE}0 added, 1 removed, 0 changed\n"), "");
    let line = FIRST_LINE.replace("48", "56");
    let changed = format!("changed 1000 40\n- {FIRST_LINE}+ {line}0 added, 0 removed, 1 changed\n");
    check(&two, &longer, 1, &changed, "");
    let moved = format!("moved 1000 40 behind 2000 40\n~ {FIRST_LINE}0 added, 0 removed, 0 changed, 1 moved\n");
    check(&two, &swapped, 1, &moved, "");
    let none = book("different-none", "x64\n");
    check(&none, &one, 1, &format!("added 1000 40\n+ {FIRST_LINE}1 added, 0 removed, 0 changed\n"), "");
}

#[test]
fn no_chain_limit() {
    let chain = |infos: usize| format!("x64\nentry begin 0x2000 end 0x2040 info 0x5000\n{}", " info\n".repeat(infos));
    let (one, most) = (book("chain-one", &chain(1)), book("chain-most", &chain(32)));
    check(&one, &most, 0, "same records\n", "");
}

#[test]
fn two_kinds() {
    let (x64, arm64) = (book("kinds-x64", "x64\n"), book("kinds-arm64", "arm64\n"));
    check(&x64, &arm64, 2, "", "books of two kinds\n");
}

#[test]
fn refused() {
    let good = book("refused-good", &format!("x64\n{FIRST}"));
    let first = book("refused-first", "x64\nentry words\n words 1\n");
    let second = book("refused-second", &format!("x64\n{FIRST}entry words\n words 1\n"));
    let third = book("refused-third", &format!("x64\n{FIRST}{FIRST}entry words\n words 1\n"));
    let layout = |file: &str, done: &str| {
        format!("{file}: refused 4: the entry's body breaks its layout or a range, behind {done}\n")
    };
    check(&good, &first, 2, "", &layout(&first, "0 entries"));
    check(&second, &good, 2, "", &layout(&second, "1 entry"));
    check(&third, &second, 2, "", &(layout(&third, "2 entries") + &layout(&second, "1 entry")));
    check(&first, &first, 2, "", &(layout(&first, "0 entries") + &layout(&first, "0 entries")));
    let contents = book("refused-contents", "words 5 0\n");
    check(&contents, &good, 2, "", &format!("{contents}: refused 3: the book breaks the contents rules\n"));
    let empty = file("refused-empty", b"");
    check(&good, &empty, 2, "", &format!("{empty}: refused 3: the book breaks the contents rules\n"));
    let broken = file("refused-broken", &[1, 0, 0, 0, 0, 0, 0, 0, 0]);
    check(&good, &broken, 2, "", &format!("{broken}: refused 3: the last word is broken\n"));
}

#[test]
fn missing_files() {
    let good = book("missing-good", &format!("x64\n{FIRST}"));
    let missing = |file: &str| format!("{file}: No such file or directory (os error 2)\n");
    check(&good, "nowhere", 2, "", &missing("nowhere"));
    check("nowhere", &good, 2, "", &missing("nowhere"));
    check("nowhere", "neither", 2, "", &(missing("nowhere") + &missing("neither")));
}

/// The blocks of README.md's section: the edit, the command, and what it prints.
#[test]
fn example_of_the_readme() {
    let readme = fs::read_to_string(folder("tools/book").join("README.md")).unwrap();
    let (_, section) = readme.split_once("\n## Compare\n").expect("the section");
    let blocks: Vec<&str> = section.split("\n\n").filter(|block| block.starts_with("    ")).collect();
    let [commands, printed, ..] = blocks[..] else { panic!("two blocks") };
    let edit =
        "sed -e '/^# ARM64/,$d' -e '/start 0x401139/s/cfa 6/cfa 7/' specimens/dwarf.txt | target/book make >new.book";
    assert!(commands.contains(edit), "{commands}");

    let text = fs::read_to_string(folder("specimens").join("dwarf.txt")).unwrap();
    let (kept, _) = text.split_once("# ARM64").unwrap();
    let row = "start 0x401139 end 0x401176 cfa ";
    let new = book("readme-new", &kept.replace(&format!("{row}6"), &format!("{row}7")));
    let old = folder("specimens").join("dwarf.book");
    let due: String = printed.lines().map(|line| format!("{}\n", line.trim_start())).collect();
    check(old.to_str().unwrap(), &new, 1, &due, "");
}
