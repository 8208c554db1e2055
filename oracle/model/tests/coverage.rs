//! The list of what a run must meet, and the counting of it.

use model::{due, Tally};
use std::collections::BTreeSet;

#[test]
fn what_never_occurred_is_missing() {
    let mut tally = Tally::default();
    tally.count("call 0");
    tally.note("line INIT");
    tally.entry_ends(true);
    tally.note("line WIN");
    tally.entry_ends(false);
    assert_eq!(tally.missing(&["call 0", "line INIT", "line WIN", "rule register"]), ["line WIN", "rule register"]);
}

#[test]
fn every_name_is_listed_once() {
    for list in [
        [due::DOMAIN, due::CALLS].concat(),
        [due::DOMAIN, due::ANSWERED].concat(),
        due::CHAINS.to_vec(),
        [due::DECODE, due::DECODE_X64].concat(),
        [due::DECODE, due::DECODE_ARM64].concat(),
    ] {
        let names: BTreeSet<&str> = list.iter().copied().collect();
        assert_eq!(names.len(), list.len());
    }
}
