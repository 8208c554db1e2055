//! What the model and the port are compared with: the Rust's answer, but for x64 bodies with a chain, that is of two or more infos. The Rust runs
//! their infos first to last; their lines are those of the second program (model/src/unwinder.rs), which undoes them in that order. Whether such a
//! body is written, skipped or too long a chain the Rust still says, and its own line must agree in what the order leaves alone. The line that it
//! writes where it is handed the infos last to first must be the second program's.

use crate::{rust_answer, Answer};
use model::book::{assemble, bodies};
use model::order::contradictions;
use model::unwinder::{line, turned};
use model::X64;

/// The answer that is due to a book of the Rust's domain.
pub fn reference(book: &[u32], limit: u32) -> Answer {
    let whole = rust_answer(book, limit);
    let bodies = bodies(book).unwrap_or_default();
    if book[0] != X64 || !bodies.iter().any(|body| chained(body)) {
        return whole;
    }
    let mut due = Answer::default();
    let mut text = Vec::new();
    for body in bodies {
        let mut one = rust_answer(&assemble(X64, &[body.to_vec()]), limit);
        text.extend(&one.text);
        if chained(body) && !one.text.is_empty() {
            let line = line(body);
            due.faults.extend(contradictions(body, &String::from_utf8_lossy(&one.text), &line));
            if rust_answer(&assemble(X64, &[turned(body)]), limit).text != line.as_bytes() {
                due.faults.push(format!("handed the infos last to first, the Rust does not write {line}"));
            }
            one.text = line.into_bytes();
        }
        due.text.extend(one.text);
        due.exceeded = one.exceeded;
        if one.exceeded {
            break;
        }
    }
    if (text, due.exceeded) != (whole.text, whole.exceeded) {
        due.faults.push("the Rust writes something else for the book than for its bodies one by one".to_string());
    }
    due
}

/// Whether an x64 body has two or more infos.
pub fn chained(body: &[u32]) -> bool {
    body.get(3).is_some_and(|infos| *infos > 1)
}
