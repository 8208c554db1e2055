//! Every refusal of a translation that can be met through this crate. 1 cannot: the crate gives the work area, and it is long
//! enough. Those of unwind bytes are in decode.rs and decode_arm64.rs.

mod common;

use common::{first, function, info, x64, FIRST_LINE};
use stacklines::book::pdb::{Pdb, Range};
use stacklines::book::x64::{Operation, X64};
use stacklines::book::Book;
use stacklines::{translate, Refusal, Refused, Translator, NO_LIMIT};

/// A call that is refused: by what, at which entry, and the lines before.
fn check(refused: Refused, refusal: Refusal, number: u32, entry: Option<usize>, done: &str) {
    assert_eq!(refused.refusal(), refusal);
    assert_eq!(refused.number(), number);
    assert_eq!(refused.entry(), entry);
    assert_eq!(refused.done().entries(), entry.unwrap_or(0));
    assert_eq!(refused.done().as_str(), done);
    let message = refused.to_string();
    assert!(message.starts_with(&format!("refused {number}")), "{message}");
    assert!(message.ends_with(&refusal.to_string()), "{message}");
    assert_eq!(refused.into_done().into_string(), done);
}

/// The first specimen, then an entry that is refused so.
fn check_second(second: X64, limit: u32, refusal: Refusal, number: u32) {
    let words = x64(vec![first(), second]);
    let refused = translate(&words, limit).unwrap_err();
    check(refused, refusal, number, Some(1), FIRST_LINE);
}

#[test]
fn limit_above_32() {
    let words = x64(vec![first()]);
    for limit in [33, u32::MAX] {
        check(translate(&words, limit).unwrap_err(), Refusal::Limit, 2, None, "");
    }
    assert!(translate(&words, NO_LIMIT).is_ok());
}

#[test]
fn contents() {
    let words = x64(vec![first()]);
    let mut gap = words.clone();
    gap[2] += 1;
    for broken in [&[][..], &[1], &[5, 0], &[1, 0, 0], &words[..16], &gap] {
        check(translate(broken, NO_LIMIT).unwrap_err(), Refusal::Contents, 3, None, "");
    }
}

#[test]
fn layout() {
    let mut words = x64(vec![first(), first()]);
    let last = words.len() - 2;
    words[last] = 16;
    check(translate(&words, NO_LIMIT).unwrap_err(), Refusal::Layout, 4, Some(1), FIRST_LINE);
}

#[test]
fn chain_longer_than_the_limit() {
    let chained = function(vec![info(vec![]); 2]);
    check_second(chained.clone(), 1, Refusal::Chain, 5);
    assert_eq!(translate(&x64(vec![first(), chained]), 2).unwrap().entries(), 2);
}

#[test]
fn limit_zero() {
    let zero = X64 { infos: vec![info(vec![])], ..X64::default() };
    let one = X64 { begin: 1, end: 2, ..zero.clone() };
    assert_eq!(translate(&x64(vec![zero.clone()]), 0).unwrap().entries(), 1);
    check(translate(&x64(vec![zero, one]), 0).unwrap_err(), Refusal::Chain, 5, Some(1), "");
}

#[test]
fn total_out_of_reach() {
    let allocate = |value| function(vec![info(vec![Operation::Allocate(value)])]);
    check_second(allocate(0x8000_0000 - 8), NO_LIMIT, Refusal::Reach, 6);
    assert!(translate(&x64(vec![allocate(0x7fff_ffff - 8)]), NO_LIMIT).is_ok());
}

#[test]
fn frame_register_set_twice() {
    let set = |count| function(vec![info(vec![Operation::SetFrame; count])]);
    check_second(set(2), NO_LIMIT, Refusal::Frame, 7);
    assert!(translate(&x64(vec![set(1)]), NO_LIMIT).is_ok());
}

/// Eight lines of 1,024 bytes; one more where the last range starts at 10h.
fn frame_of_eight_lines(last_start: u32) -> Pdb {
    let starts = (0..7).chain([last_start]);
    let program = "~".repeat(1024 - "STACK WIN 0 0 0 0 0 0 0 0 0 1 \n".len());
    Pdb {
        string_table: true,
        program: Some(program),
        code_ranges: starts.map(|start| Range { start, end: start }).collect(),
        ..Pdb::default()
    }
}

#[test]
fn longest_text() {
    let words = |last_start| Book::Pdb(vec![frame_of_eight_lines(last_start)]).words().unwrap();
    let text = translate(&words(7), NO_LIMIT).unwrap();
    assert_eq!((text.as_str().len(), text.lines().count()), (8192, 8));
    check(translate(&words(0x10), NO_LIMIT).unwrap_err(), Refusal::Long, 8, Some(0), "");
}

#[test]
fn bound_of_the_text() {
    let words = x64(vec![first(), first()]);
    let bounded = |most| Translator::new().most_bytes(most).translate(&words);
    let length = FIRST_LINE.len();
    check(bounded(0).unwrap_err(), Refusal::Room, 9, Some(0), "");
    check(bounded(length - 1).unwrap_err(), Refusal::Room, 9, Some(0), "");
    check(bounded(length).unwrap_err(), Refusal::Room, 9, Some(1), FIRST_LINE);
    check(bounded(2 * length - 1).unwrap_err(), Refusal::Room, 9, Some(1), FIRST_LINE);
    assert_eq!(bounded(2 * length).unwrap().as_str(), FIRST_LINE.repeat(2));
}
