//! The text's buffer grows as far as it must, and no further than the bound.

mod common;

use common::{info, x64};
use stacklines::book::arm64::{Arm64, Operation as Code, Slot};
use stacklines::book::pdb::{FrameType, Pdb, Range};
use stacklines::book::x64::X64;
use stacklines::book::{Book, MOST_ENTRIES};
use stacklines::{translate, Refusal, Text, Translator, MOST_ARM64_BODY, MOST_TEXT, MOST_X64_BODY, NO_LIMIT};

/// Entries with a text of much more than the 16 bytes for each word that the first buffer has.
fn entries(count: usize) -> Vec<u32> {
    let mut operations = vec![Code::PairPre(Slot::x(29, 8)); 59];
    operations.push(Code::PairPre(Slot::x(29, 1_000_000_000)));
    let words = Book::Arm64(vec![Arm64 { address: 0xf000_0000, size: u32::MAX, operations }; count]).words().unwrap();
    assert!(one_length() * count > 24 * words.len());
    words
}

/// The length of one entry's text.
fn one_length() -> usize {
    let first =
        "STACK CFI INIT f0000000 ffffffff .cfa: .sp 1000000000 + .x29: .cfa -1000000000 + ^ .x30: .cfa -999999992 + ^ \
                 .ra: .cfa -999999992 + ^\n";
    let later = "STACK CFI      f0000004 .cfa: .sp 1000000008 + .x29: .cfa -1000000008 + ^ .x30: .cfa -1000000000 + ^ \
                 .ra: .cfa -1000000000 + ^\n";
    first.len() + 59 * later.len()
}

/// The lines of one entry.
fn one() -> Text {
    translate(&entries(1), NO_LIMIT).unwrap()
}

#[test]
fn text_beyond_the_first_buffer() {
    let text = one();
    assert_eq!(text.as_str().len(), one_length());
    for count in [1, 2, 30, 60] {
        let all = translate(&entries(count), NO_LIMIT).unwrap();
        assert_eq!(all.entries(), count);
        assert_eq!(all.as_str(), text.as_str().repeat(count));
        assert_eq!(all.lines().count(), 60 * count);
    }
}

#[test]
fn many_lines() {
    let entry = Arm64 { address: 0xf000_0000, size: 4, operations: vec![Code::Other; 1_000] };
    let line = |i: usize| format!("STACK CFI      {:x} .cfa: .sp 0 +\n", 0xf000_0000u32 + 4 * i as u32);
    let short = Arm64 { operations: vec![Code::Other; 200], ..entry.clone() };
    let words = Book::Arm64(vec![short; 20]).words().unwrap();
    let text = translate(&words, NO_LIMIT).unwrap();
    assert_eq!(text.lines().count(), 20 * 200);
    assert_eq!(text.lines().nth(201).unwrap(), line(1).trim_end());
    assert!(text.as_str().len() > 1 << 17);
    let refused = translate(&Book::Arm64(vec![entry]).words().unwrap(), NO_LIMIT).unwrap_err();
    assert_eq!(refused.refusal(), Refusal::Long);
}

#[test]
fn bound_between_two_buffers() {
    let words = entries(60);
    let (text, length) = (one(), one_length());
    let (first_buffer, whole) = (16 * words.len(), 60 * length);
    for most in [whole - 1, first_buffer + 1, first_buffer, first_buffer - 1, length, 1] {
        let refused = Translator::new().most_bytes(most).translate(&words).unwrap_err();
        let fit = most / length;
        assert_eq!((refused.refusal(), refused.entry()), (Refusal::Room, Some(fit)));
        assert_eq!(refused.done().as_str(), text.as_str().repeat(fit));
    }
    for most in [whole, whole + 1, MOST_TEXT, usize::MAX] {
        let all = Translator::new().most_bytes(most).translate(&words).unwrap();
        assert_eq!(all.as_str().len(), whole);
    }
}

#[test]
fn most_entries() {
    let skipped = X64 { infos: vec![info(vec![])], ..Default::default() };
    let text = translate(&x64(vec![skipped; MOST_ENTRIES]), NO_LIMIT).unwrap();
    assert_eq!((text.entries(), text.is_empty()), (MOST_ENTRIES, true));
    assert_eq!(translate(&[1, 0], NO_LIMIT).unwrap(), Text::default());
}

/// The book of the most entries that it holds.
fn full(book: impl Fn(usize) -> Book) -> Vec<u32> {
    (1..).map_while(|count| book(count).words().ok()).last().expect("a book of one entry")
}

/// Lines as long as ARM64 has them, in entries of close to 8,192 bytes.
fn long_lines() -> Arm64 {
    let last = [Code::PairPre(Slot::x(29, 1_000_000_000))];
    let operations = vec![Code::PairPre(Slot::x(29, 8)); 63].into_iter().chain(last).collect();
    Arm64 { address: 0xf000_0000, size: u32::MAX, operations }
}

/// A program that stands in each of 32 lines. Entries with one code start behind each other would be repeats.
fn shared_program(code_start: u32) -> Pdb {
    let ranges = |from: u32| (0..16).map(|i| Range { start: from + 0x100_0000 * i, end: u32::MAX }).collect();
    Pdb {
        frame_type: FrameType::FrameData,
        code_start,
        params_size: u32::MAX,
        saved_registers_size: u16::MAX,
        locals_size: u32::MAX,
        max_stack_size: Some(u32::MAX),
        string_table: true,
        program: Some("^".repeat(181)),
        prolog_ranges: ranges(0x1000_0000),
        code_ranges: ranges(0x2000_0000),
        ..Pdb::default()
    }
}

/// The longest texts known.
#[test]
fn longest_texts() {
    let arm64 = full(|count| Book::Arm64(vec![long_lines(); count]));
    let pdb = full(|count| Book::Pdb((0..count).map(|i| shared_program(i as u32)).collect()));
    for words in [arm64, pdb] {
        let length = translate(&words, NO_LIMIT).unwrap().as_str().len();
        assert!(500_000 < length && length < 32 * words.len(), "{length} bytes of {} words", words.len());
        assert!(length < MOST_TEXT);
    }
}

#[test]
fn header_has_the_same_numbers() {
    let header = include_str!("../../c/stacklines.h");
    let defined =
        |name: &str| header.lines().find_map(|line| line.strip_prefix(&format!("#define STACKLINES_{name} ")));
    assert_eq!(defined("LARGEST_TEXT"), Some(MOST_TEXT.to_string().as_str()));
    assert_eq!(defined("LARGEST_X64_BODY"), Some(MOST_X64_BODY.to_string().as_str()));
    assert_eq!(defined("LARGEST_ARM64_BODY"), Some(MOST_ARM64_BODY.to_string().as_str()));
    assert_eq!(defined("NO_LIMIT"), Some(NO_LIMIT.to_string().as_str()));
    assert_eq!(defined("VERSION"), Some(format!("{:?}", env!("CARGO_PKG_VERSION")).as_str()));
}

#[test]
fn header_has_the_same_refusals() {
    let header = include_str!("../../c/stacklines.h");
    let names = header.lines().filter_map(|line| line.trim().strip_prefix("STACKLINES_")?.split_once(" = "));
    let numbers: Vec<(&str, u32)> = names
        .map(|(name, rest)| (name, rest.split([',', ' ']).next().and_then(|word| word.parse().ok()).expect("a number")))
        .collect();
    let due = [
        ("WORK_SHORT", Refusal::Work),
        ("LIMIT", Refusal::Limit),
        ("CONTENTS", Refusal::Contents),
        ("LAYOUT", Refusal::Layout),
        ("CHAIN", Refusal::Chain),
        ("REACH", Refusal::Reach),
        ("FRAME", Refusal::Frame),
        ("LONG", Refusal::Long),
        ("ROOM", Refusal::Room),
        ("UNWIND_VERSION", Refusal::UnwindVersion),
        ("UNWIND_SHORT", Refusal::UnwindShort),
        ("CODE_SHORT", Refusal::CodeShort),
    ];
    assert_eq!(numbers[0], ("DONE", 0));
    assert_eq!(numbers[1..], due.map(|(name, refusal)| (name, refusal.number())));
    let of_entries: Vec<u32> = due.iter().filter(|(_, r)| r.is_of_entry()).map(|(_, r)| r.number()).collect();
    assert_eq!(of_entries, [4, 5, 6, 7, 8, 9]);
}
