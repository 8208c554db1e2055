//! The port against the unchanged Rust, on x64 chains against the second program (rust/src/reference.rs). The model only says which books lie in the
//! Rust's domain; the text and the refusal come from the other two.

use model::book::WORK;
use model::gen::Case;
use model::run::Run;
use model::shrink::shrink;
use model::{Outcome, Tally};
use port::{call, differences, filling};
use rust::{in_domain, reference};

/// A book under a limit, with a work area as long as it has to be.
pub fn plain(book: Vec<u32>, limit: u32) -> Case {
    Case { book, limit, work_len: WORK, text_len: 0, need: 0, counts_len: 2 }
}

pub fn compare(run: &mut Run, case: &Case) {
    match found(case, &mut run.tally) {
        Some(found) => run.compared(!found.is_empty(), || show(case)),
        None => run.outside(),
    }
}

/// What differs for the part of the book that lies in the domain, if any does. The buffers are as long as it needs, or longer.
fn found(case: &Case, tally: &mut Tally) -> Option<Vec<String>> {
    let (part, done) = in_domain(&case.book, case.limit, tally)?;
    let answer = reference(&part, case.limit);
    let need = answer.text.len();
    let (work_len, text_len) = (case.work_len.max(WORK), need + case.text_len % 200);
    let (work, mut text) = (filling(3, work_len), filling(4, text_len));
    let case = Case { book: part, work_len, text_len, need, ..*case };
    let called = call(&case, &work, &text);
    let mut cleared = work;
    cleared[..WORK].fill(0);
    text[..need].copy_from_slice(&answer.text);
    let number = if answer.exceeded { 5 } else { 0 };
    let due = Outcome { number, entries: done.entries, length: need, work: cleared, text };
    Some([differences(&case, &due, &called), answer.faults].concat())
}

fn show(case: &Case) {
    let with = |book: &[u32]| Case { book: book.to_vec(), ..*case };
    let found = |case: &Case| found(case, &mut Tally::default()).unwrap_or_default();
    let small = with(&shrink(&case.book, &|book| !found(&with(book)).is_empty()));
    println!("{small:?}");
    for line in found(&small) {
        println!("    {line}");
    }
}
