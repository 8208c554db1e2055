//! Counts of what a run met, for the coverage table.

use std::collections::BTreeMap;

#[derive(Default)]
pub struct Tally {
    counts: BTreeMap<&'static str, u64>,
    /// Of the entry at hand; these count where the entry is done.
    pending: Vec<&'static str>,
}

impl Tally {
    /// Counts at once.
    pub fn count(&mut self, what: &'static str) {
        *self.counts.entry(what).or_insert(0) += 1;
    }

    /// Counts once the entry at hand is done.
    pub fn note(&mut self, what: &'static str) {
        self.pending.push(what);
    }

    /// The entry at hand is done, or refused: then what was noted of it does not count.
    pub fn entry_ends(&mut self, done: bool) {
        let mut pending = std::mem::take(&mut self.pending);
        for what in pending.drain(..) {
            if done {
                self.count(what);
            }
        }
        self.pending = pending;
    }

    /// The names of a list that never occurred.
    pub fn missing<'a>(&self, due: &[&'a str]) -> Vec<&'a str> {
        due.iter().filter(|what| !self.counts.contains_key(**what)).copied().collect()
    }

    /// The names that occurred.
    pub fn names(&self) -> impl Iterator<Item = &'static str> + '_ {
        self.counts.keys().copied()
    }

    /// Prints the table, three to a line.
    pub fn print(&self) {
        let cells: Vec<String> = self.counts.iter().map(|(what, n)| format!("{n:>9} {what:<36}")).collect();
        for line in cells.chunks(3) {
            println!("{}", line.join("").trim_end());
        }
    }
}
