//! What an x64 body with a chain holds, by where it stands: in the function's own part, or in a parent.

use crate::unwinder::{line, parts, turned, Part, ALLOCATE, MACHINE_FRAME, OTHER, PUSH, SAVE_FP, SAVE_RSP, SET_FRAME};
use crate::Tally;

/// For each kind of operation the names of where it stands: in the part, in a parent, in both. Nothing sets a frame register twice.
const PLACES: [(u32, &[&str]); 7] = [
    (PUSH, &["chain push, part", "chain push, parent", "chain push, part and parent"]),
    (ALLOCATE, &["chain allocate, part", "chain allocate, parent", "chain allocate, part and parent"]),
    (SAVE_RSP, &["chain save rsp, part", "chain save rsp, parent", "chain save rsp, part and parent"]),
    (SAVE_FP, &["chain save fp, part", "chain save fp, parent", "chain save fp, part and parent"]),
    (SET_FRAME, &["chain set frame, part", "chain set frame, parent"]),
    (MACHINE_FRAME, &["chain machine frame, part", "chain machine frame, parent", "chain machine frame, both"]),
    (OTHER, &["chain other, part", "chain other, parent", "chain other, part and parent"]),
];

/// Counts what a body holds that was written, where it has two or more infos.
pub fn note_chain(body: &[u32], tally: &mut Tally) {
    let all = parts(body).unwrap_or_default();
    let [part, parents @ ..] = &all[..] else {
        return;
    };
    tally.count(match parents.len() {
        0 => return,
        1 => "chain of 2 infos",
        2 => "chain of 3 infos",
        3..=30 => "chain of 4 to 31 infos",
        _ => "chain of 32 infos",
    });
    for (kind, names) in PLACES {
        let places = [holds(part, kind), above(parents, kind), holds(part, kind) && above(parents, kind)];
        for (_, name) in places.iter().zip(names).filter(|(holds, _)| **holds) {
            tally.count(name);
        }
    }
    for (_, name) in together(part, parents).iter().filter(|(holds, _)| *holds) {
        tally.count(name);
    }
    tally.count(if changed(body) { "chain unlike first to last" } else { "chain as first to last" });
}

/// Whether the line would be another one with the infos run first to last.
pub fn changed(body: &[u32]) -> bool {
    line(body) != line(&turned(body))
}

fn holds(part: &Part, kind: u32) -> bool {
    part.codes.iter().any(|code| code[0] == kind)
}

/// Whether one of the parents holds it.
fn above(parents: &[Part], kind: u32) -> bool {
    parents.iter().any(|parent| holds(parent, kind))
}

/// What a part has to do with its parents.
fn together(part: &Part, parents: &[Part]) -> [(bool, &'static str); 8] {
    let no_codes = |part: &Part| part.codes.is_empty();
    let register = part.frame_register;
    [
        (holds(part, SAVE_RSP) && above(parents, ALLOCATE), "chain save over a parent's allocation"),
        (holds(part, SET_FRAME) && above(parents, PUSH), "chain set frame over a parent's push"),
        (holds(part, SET_FRAME) && above(parents, ALLOCATE), "chain set frame over an allocation"),
        (holds(part, SAVE_FP) && above(parents, SET_FRAME), "chain save fp, frame of a parent"),
        (no_codes(part), "chain no operations, part"),
        (parents.iter().any(no_codes), "chain no operations, parent"),
        (no_codes(part) && parents.iter().all(no_codes), "chain no operations at all"),
        (parents.iter().any(|parent| parent.frame_register != register), "chain frame registers differ"),
    ]
}
