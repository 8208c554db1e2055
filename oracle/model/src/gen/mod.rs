//! Seeded books of every kind: ordinary ones, ones at the limits of document 01, damaged copies, plain words.

mod arm64;
mod damage;
mod dwarf;
pub mod input;
mod pdb;
pub mod unwind_codes;
pub mod unwind_info;
mod x64;

use crate::book::{assemble, MOST_WORDS, WORK};
use crate::rng::Rng;
use crate::{translate, Tally, ARM64, DWARF, PDB, X64};

pub use dwarf::every_name;

/// A call: the book, the limit and the lengths of the buffers.
#[derive(Clone, Debug)]
pub struct Case {
    pub book: Vec<u32>,
    pub limit: u32,
    pub work_len: usize,
    pub text_len: usize,
    /// The length of the text that there would be with room for it.
    pub need: usize,
    pub counts_len: usize,
}

/// One call; its book is of one of these kinds.
pub fn case(rng: &mut Rng, kinds: &[u32]) -> Case {
    let kind = rng.pick(kinds);
    let book = book(rng, kind);
    call(rng, book)
}

/// One call with an x64 book whose functions are chains.
pub fn chained_case(rng: &mut Rng) -> Case {
    let book = chained_book(rng);
    call(rng, book)
}

fn call(rng: &mut Rng, book: Vec<u32>) -> Case {
    let limit = limit(rng);
    let work_len = match rng.below(12) {
        0 => rng.pick(&[0, 1, 4096, WORK - 1]),
        1 => WORK + 1,
        2 => WORK + rng.pick(&[2, 300, 8192, 57_344]),
        _ => WORK,
    };
    let need = translate(&book, limit, WORK, usize::MAX, &mut Tally::default()).text.len();
    let text_len = text_len(rng, need);
    let counts_len = rng.pick(&[2, 2, 2, 2, 2, 0, 1, 3, 9]);
    Case { book, limit, work_len, text_len, need, counts_len }
}

fn limit(rng: &mut Rng) -> u32 {
    match rng.below(16) {
        0..=3 => rng.below(34),
        4 => rng.below(4),
        5 if rng.one_in(4) => rng.pick(&[33, 34, 255, 0x7fff_ffff, 0x8000_0020, u32::MAX]),
        _ => 32,
    }
}

/// Room for a text of `length` bytes: none, one short, exact, long, or somewhere inside.
fn text_len(rng: &mut Rng, length: usize) -> usize {
    match rng.below(10) {
        0 => 0,
        1 => length.saturating_sub(1),
        2..=4 => length,
        5 => length + 1,
        6 => rng.index(length + 1),
        _ => length + rng.index(200),
    }
}

/// A book of one kind.
pub fn book(rng: &mut Rng, kind: u32) -> Vec<u32> {
    match rng.below(40) {
        0..=3 => {
            let mut book = whole_book(rng, kind);
            damage::damage(rng, &mut book);
            book
        }
        4 => damage::plain_words(rng),
        _ => whole_book(rng, kind),
    }
}

fn whole_book(rng: &mut Rng, kind: u32) -> Vec<u32> {
    let most = match rng.below(60) {
        0 => return many_entries(rng, kind),
        1 => 60,
        2..=9 => 12,
        _ => 4,
    };
    let count = rng.below(most + 1) as usize;
    let mut bodies: Vec<Vec<u32>> = Vec::new();
    let mut words = 2;
    for _ in 0..count {
        let body = body(rng, kind, &bodies);
        words += 2 + body.len();
        if words > MOST_WORDS {
            break;
        }
        bodies.push(body);
    }
    assemble(kind, &bodies)
}

/// An x64 book of one to six bodies, each of 2 to 32 infos.
pub fn chained_book(rng: &mut Rng) -> Vec<u32> {
    let count = if rng.one_in(8) { 6 } else { rng.from_to(1, 3) };
    let bodies: Vec<Vec<u32>> = (0..count).map(|_| x64::chained_body(rng)).collect();
    assemble(X64, &bodies)
}

/// A body; a PDB body may repeat one of those before it.
fn body(rng: &mut Rng, kind: u32, before: &[Vec<u32>]) -> Vec<u32> {
    let mut body = match kind {
        X64 => x64::body(rng),
        ARM64 => arm64::body(rng),
        DWARF => dwarf::body(rng),
        PDB => pdb::body(rng, before),
        _ => Vec::new(),
    };
    if rng.one_in(150) {
        damage::damage_body(rng, &mut body);
    }
    body
}

/// As many entries, or words, as a book may have, and one more.
fn many_entries(rng: &mut Rng, kind: u32) -> Vec<u32> {
    let small: Vec<u32> = match kind {
        X64 => vec![rng.below(9), 16, 32, 1, 0, 0, 0],
        ARM64 => vec![rng.below(9), 16, 0],
        DWARF => vec![2, 0, 0, 0, 0, 16, 0],
        _ => vec![rng.below(5), 4096, 16, 0, 0, 0, 0, 0, 0, 1, 0, 0, 0, 0, 0],
    };
    if rng.one_in(2) {
        let count = rng.pick(&[1023, 1024, 1025]);
        return assemble(kind, &vec![small; count]);
    }
    let mut bodies = vec![small; 16];
    let words = rng.pick(&[MOST_WORDS - 1, MOST_WORDS, MOST_WORDS + 1]);
    let filled = 2 + 2 * 17 + bodies.iter().map(Vec::len).sum::<usize>();
    bodies.push(vec![rng.below(3); words - filled]);
    assemble(kind, &bodies)
}

/// More bytes than one step of `longer` adds.
const LONGEST_RULE: usize = 64;

/// Changes `body` so that its text has `target` bytes: `longer` adds a rule, `shorter` takes a byte away.
fn tune(
    kind: u32,
    target: usize,
    mut body: Vec<u32>,
    longer: impl Fn(&mut Vec<u32>, usize),
    shorter: impl Fn(&mut Vec<u32>, usize),
) -> Vec<u32> {
    let mut added = 0;
    while text_of(kind, &body) < target && added < 2000 {
        let short = target - text_of(kind, &body);
        for _ in 0..(short / LONGEST_RULE).max(1) {
            longer(&mut body, added);
            added += 1;
        }
    }
    let over = text_of(kind, &body).saturating_sub(target);
    for i in 0..over.min(100) {
        shorter(&mut body, i);
    }
    body
}

/// The length of the entry's text, before it is refused for it; without end where it is refused otherwise.
fn text_of(kind: u32, body: &[u32]) -> usize {
    let mut tally = Tally::default();
    let judged = match kind {
        X64 => crate::x64::entry(body, 32, &mut tally),
        ARM64 => crate::arm64::entry(body, &mut tally),
        DWARF => crate::dwarf::entry(body, &mut tally),
        _ => crate::pdb::entry(body, &mut Default::default(), &mut tally),
    };
    match judged {
        crate::Judged::Text(text) => text.len(),
        crate::Judged::Skipped(_) => 0,
        crate::Judged::Refused(_) => usize::MAX,
    }
}

/// Lengths about the longest text of an entry.
fn near_longest(rng: &mut Rng) -> usize {
    rng.pick(&[WORK - 1, WORK, WORK, WORK + 1, WORK + 1, WORK + 2])
}
