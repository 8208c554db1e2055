//! The port against the second program (model/src/unwinder.rs) on x64 books. Which entries are written, and what a call gives beside the text, is
//! the model's; every line is the second program's.

use crate::{call, differences, filling};
use model::book::bodies;
use model::chains::note_chain;
use model::gen::Case;
use model::unwinder::line;
use model::{outcome, x64, Judged, Outcome, Tally};

/// What differs between a call of the port and the outcome that is due.
pub fn against_unwinder(case: &Case, tally: &mut Tally) -> Vec<String> {
    let (work, text) = (filling(5, case.work_len), filling(6, case.text_len));
    let model = outcome(&case.book, case.limit, &work, &text, tally);
    let lines = lines(case, model.entries, tally);
    let mut all = lines.concat().into_bytes();
    let length = all.len();
    all.extend(text.iter().skip(length));
    let called = call(case, &work, &text);
    let written = called.outcome.text[..model.length].to_vec();
    let mut found = differences(case, &Outcome { length, text: all, ..model }, &called);
    found.extend(first_line(&String::from_utf8_lossy(&written), &lines));
    found
}

/// The second program's lines of the entries that are done, and counts what these hold.
fn lines(case: &Case, done: usize, tally: &mut Tally) -> Vec<String> {
    let mut lines = Vec::new();
    for body in bodies(&case.book).unwrap_or_default().into_iter().take(done) {
        if let Judged::Text(_) = x64::entry(body, case.limit, &mut Tally::default()) {
            note_chain(body, tally);
            lines.push(line(body));
        }
    }
    lines
}

/// The first line that differs.
fn first_line(written: &str, due: &[String]) -> Option<String> {
    let mut both = written.split_inclusive('\n').zip(due);
    both.find(|(line, due)| line != due).map(|(line, due)| format!("{} for {}", line.trim_end(), due.trim_end()))
}
