//! The unchanged Rust, driven by books: its objects are filled in by hand from the bodies.

include!(concat!(env!("OUT_DIR"), "/source.rs"));

mod arm64;
pub mod cases;
mod dwarf;
mod pdb;
mod reference;
mod x64;

use model::book::{assemble, bodies};
use model::{translate, Tally, Translated, ARM64, DWARF, X64};
use symbolic_cfi::{AsciiCfiWriter, CfiErrorKind};
use symbolic_debuginfo::Object;

pub use reference::{chained, reference};

/// What the Rust gives: the text, and whether it stopped at a chain that is too long.
#[derive(Default)]
pub struct Answer {
    pub text: Vec<u8>,
    pub exceeded: bool,
    /// Of a reference: where the Rust and the second program contradict each other.
    pub faults: Vec<String>,
}

/// The unchanged Rust's own answer to a book of its domain.
pub fn rust_answer(book: &[u32], limit: u32) -> Answer {
    let bodies = bodies(book).expect("a book that keeps the contents rules");
    match book[0] {
        X64 => process(&x64::object(&bodies), chain_limit(limit)),
        ARM64 => process(&arm64::object(&bodies), None),
        DWARF => dwarf::answer(&bodies),
        _ => pdb::answer(&bodies),
    }
}

/// A book as one object, filled in so that only the translation is left to do.
pub struct Prepared(Object<'static>);

/// Of a book that one object can hold: DWARF bodies agree about family and load address, PDB bodies about the string table.
pub fn prepare(book: &[u32]) -> Prepared {
    let bodies = bodies(book).expect("a book that keeps the contents rules");
    Prepared(match book[0] {
        X64 => x64::object(&bodies),
        ARM64 => arm64::object(&bodies),
        DWARF => dwarf::object(&bodies),
        _ => pdb::object(&bodies),
    })
}

impl Prepared {
    /// The translation alone, without a limit, into a text that is cleared first and keeps its room.
    #[inline(never)]
    pub fn translate(&self, text: &mut Vec<u8>) {
        text.clear();
        AsciiCfiWriter::new(text).process(&self.0).expect("a book that the Rust translates");
    }
}

/// 32 stands for no limit.
fn chain_limit(limit: u32) -> Option<usize> {
    (limit != 32).then_some(limit as usize)
}

fn process(object: &Object, limit: Option<usize>) -> Answer {
    let mut text = Vec::new();
    let mut writer = AsciiCfiWriter::new(&mut text).max_unwind_chain_len(limit);
    let exceeded = match writer.process(object) {
        Ok(()) => false,
        Err(e) if e.kind() == CfiErrorKind::ExceededUnwindChainLength => true,
        Err(e) => panic!("the Rust failed: {e}"),
    };
    Answer { text, exceeded, faults: Vec::new() }
}

/// The part of a book that lies in the Rust's domain: all of it; the entries up to the one refused by 5, as no later
/// one is looked at; or the entries before one refused otherwise. With it the model's answer to that part.
/// None where it has none: the contents rules do not hold, or the first entry is refused by another number than 5.
pub fn in_domain(book: &[u32], limit: u32, tally: &mut Tally) -> Option<(Vec<u32>, Translated)> {
    let mut done = translate(book, limit, usize::MAX, usize::MAX, tally);
    let part = match done.number {
        0 => return Some((book.to_vec(), done)),
        1..=3 => return None,
        5 => done.entries + 1,
        _ if done.entries == 0 => return None,
        _ => {
            done.number = 0;
            done.entries
        }
    };
    let bodies: Vec<Vec<u32>> = bodies(book)?[..part].iter().map(|b| b.to_vec()).collect();
    Some((assemble(book[0], &bodies), done))
}

/// Whether the model differs from what is due to the book.
pub fn differs(book: &[u32], limit: u32) -> bool {
    match in_domain(book, limit, &mut Tally::default()) {
        Some((part, done)) => !agrees(&done, &reference(&part, limit)),
        None => false,
    }
}

pub fn agrees(done: &Translated, answer: &Answer) -> bool {
    done.text == answer.text && (done.number == 5) == answer.exceeded && answer.faults.is_empty()
}
