//! A second reading of document 01, with what document 02 has changed, in plain Rust, written from its words, and a generator of books.
//! The port and the unchanged Rust are both compared with it; so is a second program for x64 chains, unwinder.rs.

pub mod arm64;
pub mod book;
pub mod chains;
pub mod decoder;
pub mod due;
pub mod dwarf;
pub mod files;
pub mod gen;
pub mod names;
pub mod order;
pub mod pdb;
pub mod records;
pub mod rng;
pub mod run;
pub mod shrink;
pub mod tally;
pub mod unwind_codes;
pub mod unwind_info;
pub mod unwinder;
pub mod words;
pub mod x64;

pub use book::{outcome, translate, Outcome, Translated};
pub use tally::Tally;

/// All four kinds of book.
pub const ALL_KINDS: &[u32] = &[X64, ARM64, DWARF, PDB];

pub const X64: u32 = 1;
pub const ARM64: u32 = 2;
pub const DWARF: u32 = 3;
pub const PDB: u32 = 4;

/// What becomes of one entry before its length is looked at.
pub enum Judged {
    Refused(u32),
    Skipped(&'static str),
    Text(String),
}

/// Whether a number lies within signed 32 bits.
pub fn in_reach(n: i64) -> bool {
    (-(1 << 31)..(1 << 31)).contains(&n)
}
