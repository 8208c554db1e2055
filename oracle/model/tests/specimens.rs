//! The specimens of document 01, and what its refusal list says of single books.

use model::book::{assemble, WORK};
use model::{outcome, translate, Tally, Translated, ARM64, DWARF, PDB, X64};

fn call(book: &[u32], limit: u32) -> Translated {
    translate(book, limit, WORK, usize::MAX, &mut Tally::default())
}

fn one(kind: u32, body: &[u32]) -> Translated {
    call(&assemble(kind, &[body.to_vec()]), 32)
}

fn text(done: &Translated) -> &str {
    assert_eq!(done.number, 0);
    std::str::from_utf8(&done.text).unwrap()
}

/// An x64 body of one info without a frame register.
fn x64(operations: &[[u32; 3]]) -> Vec<u32> {
    x64_framed(0, 0, operations)
}

fn x64_framed(register: u32, offset: u32, operations: &[[u32; 3]]) -> Vec<u32> {
    let mut body = vec![4096, 4160, 20480, 1, register, offset, operations.len() as u32];
    body.extend(operations.iter().flatten());
    body
}

fn arm64(operations: &[[u32; 4]]) -> Vec<u32> {
    let mut body = vec![4096, 64, operations.len() as u32];
    body.extend(operations.iter().flatten());
    body
}

#[test]
fn first_specimen() {
    let line = "STACK CFI INIT 1000 40 .cfa: $rsp 48 + $rbx: .cfa 16 - ^ .ra: .cfa 8 - ^\n";
    let done = call(&[1, 1, 4, 13, 4096, 4160, 20480, 1, 0, 0, 2, 2, 0, 32, 1, 3, 0], 32);
    assert_eq!((text(&done), done.entries), (line, 1));
    let split = one(X64, &x64(&[[2, 0, 16], [2, 0, 16], [1, 3, 0]]));
    assert_eq!(text(&split), line);
}

#[test]
fn machine_frames() {
    let rules = " $rsp: .cfa 24 - ^ .ra: .cfa 48 - ^\n";
    for (error_code, cfa) in [(0, 48), (1, 56)] {
        let done = one(X64, &x64(&[[6, 0, error_code]]));
        assert_eq!(text(&done), format!("STACK CFI INIT 1000 40 .cfa: $rsp {cfa} +{rules}"));
    }
}

#[test]
fn frame_register_and_saves() {
    let done = one(X64, &x64_framed(5, 16, &[[5, 0, 0], [2, 0, 32], [1, 5, 0]]));
    assert!(text(&done).contains(" .cfa: $rbp 32 + "));
    let done = one(X64, &x64(&[[3, 3, 16]]));
    assert!(text(&done).contains(".cfa -8 - ^"));
}

#[test]
fn limit_zero() {
    let zero = vec![0, 0, 0, 1, 0, 0, 0];
    let other = vec![1, 2, 0, 1, 0, 0, 0];
    let done = call(&assemble(X64, &[zero, other]), 0);
    assert_eq!((done.number, done.entries, done.text.len()), (5, 1, 0));
}

#[test]
fn arm64_lines() {
    let done = one(ARM64, &arm64(&[[8, 0, 0, 0]]));
    assert_eq!(text(&done), "STACK CFI INIT 1000 40 .cfa: .sp 0 + .ra: .x30\n");
    let done = one(ARM64, &arm64(&[[7, 0, 0, 0]]));
    assert!(text(&done).contains(" .x1: .cfa 8 + ^ .x2: .cfa 16 + ^"));
    let done = one(ARM64, &arm64(&[[5, 0, 29, 16]]));
    let rules = ".cfa: .sp 16 + .x29: .cfa -16 + ^ .x30: .cfa -8 + ^ .ra: .cfa -8 + ^\n";
    assert!(text(&done).ends_with(rules));
}

#[test]
fn totals_at_the_limit() {
    assert_eq!(one(X64, &x64(&[[2, 0, 0x7fff_fff7]])).number, 0);
    assert_eq!(one(X64, &x64(&[[2, 0, 0x7fff_fff8]])).number, 6);
}

#[test]
fn code_size_at_the_limit() {
    for (size, lines) in [(0x7fff_ffff, 1), (0x8000_0000, 0)] {
        let done = one(PDB, &[4, 0, size, 0, 0, 0, 0, 0, 0, 1, 0, 0, 0, 1, 0, 0, 16]);
        assert_eq!(text(&done).lines().count(), lines);
    }
}

#[test]
fn longest_entry() {
    let line = "STACK WIN 4 0 10 0 0 0 0 0 0 1 \n".len();
    let length = (WORK - 8 * line) / 8;
    for (starts, number) in [(0, 0), (1, 8)] {
        let mut body = vec![4, 0, 16, 0, 0, 0, 0, 0, 0, 1, 1, 1, 0, 8, length as u32];
        // Where `starts` is 1 one start has a digit more.
        body.extend((0..8).flat_map(|i| if i < 7 { [i, i + 16] } else { [7 + 9 * starts, 23 + 9 * starts] }));
        body.extend(vec![65; length]);
        let done = one(PDB, &body);
        assert_eq!((done.number, done.text.len()), (number, if number == 0 { WORK } else { 0 }));
    }
}

#[test]
fn no_entries() {
    let done = call(&[1, 0], 32);
    assert_eq!((done.number, done.entries, done.text.len()), (0, 0, 0));
    let bytes = [7u8; 8200];
    let after = outcome(&[1, 0], 32, &bytes, &bytes, &mut Tally::default());
    assert_eq!((&after.work[WORK - 1..WORK + 1], &after.text[..]), (&[0, 7][..], &bytes[..]));
}

#[test]
fn unwritable_rule_is_remembered() {
    let row = |start: u32, kind: u32| [start, 0, start + 1, 0, 0, 7, 8, 0, 1, 3, kind, 16, 0];
    let rows = [row(0, 1), row(1, 4), row(2, 1)];
    let body = [&[2, 0, 0, 0, 0, 16, 3][..], &rows.concat()].concat();
    let done = one(DWARF, &body);
    let lines = "STACK CFI INIT 0 3 .cfa: $rsp 8 + $rbx: .cfa 16 + ^\nSTACK CFI 2 $rbx: .cfa 16 + ^\n";
    assert_eq!(text(&done), lines);
}

#[test]
fn refusals_that_touch_nothing() {
    let bytes = [7u8; 8192];
    for (book, limit, work, number) in [
        (&[1u32, 0][..], 33, 8191, 1),
        (&[9, 0], 33, 8192, 2),
        (&[9, 0], 32, 8192, 3),
        (&[1], 32, 8192, 3),
        (&[1, 0, 0], 32, 8192, 3),
    ] {
        let after = outcome(book, limit, &bytes[..work], &bytes, &mut Tally::default());
        assert_eq!((after.number, after.entries, after.length), (number, 0, 0));
        assert!(after.work == bytes[..work] && after.text == bytes);
    }
}
