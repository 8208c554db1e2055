//! Books that several tests use.
#![allow(dead_code)]

use stacklines::book::x64::{Info, Operation, Register, X64};
use stacklines::book::Book;
use stacklines::{Refusal, Undecoded};
use std::fmt::Debug;

/// The line of `specimens/first.book`.
pub const FIRST_LINE: &str = "STACK CFI INIT 1000 40 .cfa: $rsp 48 + $rbx: .cfa 16 - ^ .ra: .cfa 8 - ^\n";

/// A function from 1000h to 1040h with these infos.
pub fn function(infos: Vec<Info>) -> X64 {
    X64 { begin: 0x1000, end: 0x1040, info_address: 0x5000, infos }
}

/// An info without a frame register.
pub fn info(operations: Vec<Operation>) -> Info {
    Info { operations, ..Info::default() }
}

/// Push $rbx, allocate 32: the entry of `specimens/first.book`.
pub fn first() -> X64 {
    function(vec![info(vec![Operation::Allocate(32), Operation::Push(Register::Rbx)])])
}

/// The words of a book of x64 entries.
pub fn x64(entries: Vec<X64>) -> Vec<u32> {
    Book::X64(entries).words().expect("the layout holds")
}

/// The outcome of a decoding is this refusal.
#[track_caller]
pub fn refused<T: Debug>(outcome: Result<T, Undecoded>, refusal: Refusal, number: u32, message: &str) {
    let undecoded = outcome.unwrap_err();
    assert_eq!((undecoded.refusal(), undecoded.number()), (refusal, number));
    assert_eq!(undecoded.to_string(), format!("refused {number}: {message}"));
}
