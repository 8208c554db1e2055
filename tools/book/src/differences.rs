//! What differs between two texts of STACK lines, record by record. README.md describes the report.
//!
//! A record is an INIT line with the later lines behind it, or a WIN line. A later line that no INIT stands before is a
//! record of its own.

use std::collections::{HashMap, VecDeque};
use std::fmt;
use std::hash::Hash;

/// What differs between two texts, in the order of addresses. Shown, it is the report.
#[derive(Debug)]
pub struct Differences<'a>(Vec<Difference<'a>>);

impl Differences<'_> {
    /// Whether the texts are equal.
    pub fn is_empty(&self) -> bool {
        self.0.is_empty()
    }
}

impl fmt::Display for Differences<'_> {
    fn fmt(&self, f: &mut fmt::Formatter) -> fmt::Result {
        if self.is_empty() {
            return writeln!(f, "same records");
        }
        for difference in &self.0 {
            difference.fmt(f)?;
        }
        let count = |what| self.0.iter().filter(|difference| difference.what == what).count();
        let [added, removed, changed, moved] = [What::Added, What::Removed, What::Changed, What::Moved].map(count);
        write!(f, "{added} added, {removed} removed, {changed} changed")?;
        if moved > 0 {
            write!(f, ", {moved} moved")?;
        }
        writeln!(f)
    }
}

/// What became of one record.
#[derive(Debug)]
struct Difference<'a> {
    what: What,
    name: Name<'a>,
    /// Behind which record a moved one now stands, if behind any.
    behind: Option<Name<'a>>,
    lines: Vec<(Sign, &'a str)>,
}

#[derive(Clone, Copy, Debug, PartialEq)]
enum What {
    Added,
    Removed,
    Changed,
    Moved,
}

/// In which text a line stands.
#[derive(Clone, Copy, Debug, PartialEq, Eq, PartialOrd, Ord)]
enum Sign {
    Old,
    New,
    /// In both, at another place.
    Both,
}

impl fmt::Display for Difference<'_> {
    fn fmt(&self, f: &mut fmt::Formatter) -> fmt::Result {
        let name = self.name;
        match (self.what, self.behind) {
            (What::Added, _) => writeln!(f, "added {name}")?,
            (What::Removed, _) => writeln!(f, "removed {name}")?,
            (What::Changed, _) => writeln!(f, "changed {name}")?,
            (What::Moved, Some(behind)) => writeln!(f, "moved {name} behind {behind}")?,
            (What::Moved, None) => writeln!(f, "moved {name} to the front")?,
        }
        for (sign, line) in &self.lines {
            let sign = match sign {
                Sign::Old => '-',
                Sign::New => '+',
                Sign::Both => '~',
            };
            writeln!(f, "{sign} {line}")?;
        }
        Ok(())
    }
}

// ---- lines and records

/// What a line says of itself: its address and the size behind it, as they stand there.
#[derive(Clone, Copy, Debug, PartialEq, Eq, Hash)]
enum Name<'a> {
    Init { address: &'a str, size: &'a str },
    Later { address: &'a str },
    Win { kind: &'a str, address: &'a str, size: &'a str },
}

impl<'a> Name<'a> {
    fn of(line: &'a str) -> Self {
        let words: Vec<&str> = line.split_whitespace().take(5).collect();
        match words[..] {
            [_, "CFI", "INIT", address, size] => Name::Init { address, size },
            [_, "WIN", kind, address, size] => Name::Win { kind, address, size },
            [_, _, address, ..] => Name::Later { address },
            // The call writes no such line.
            _ => Name::Later { address: "0" },
        }
    }

    fn address(self) -> u64 {
        let (Name::Init { address, .. } | Name::Later { address } | Name::Win { address, .. }) = self;
        u64::from_str_radix(address, 16).unwrap_or(0)
    }
}

impl fmt::Display for Name<'_> {
    fn fmt(&self, f: &mut fmt::Formatter) -> fmt::Result {
        match self {
            Name::Init { address, size } | Name::Win { address, size, .. } => write!(f, "{address} {size}"),
            Name::Later { address } => f.write_str(address),
        }
    }
}

/// A thing at its place in a list: a record in a text, or a line in a record.
#[derive(Clone, Copy, Debug)]
struct Placed<T> {
    place: usize,
    thing: T,
}

fn placed<T>(things: impl IntoIterator<Item = T>) -> Vec<Placed<T>> {
    things.into_iter().enumerate().map(|(place, thing)| Placed { place, thing }).collect()
}

#[derive(Debug)]
struct Record<'a> {
    name: Name<'a>,
    lines: Vec<&'a str>,
}

impl<'a> Record<'a> {
    fn difference(&self, what: What, sign: Sign) -> Difference<'a> {
        let lines = self.lines.iter().map(|&line| (sign, line)).collect();
        Difference { what, name: self.name, behind: None, lines }
    }
}

fn records(text: &str) -> Vec<Record<'_>> {
    let mut records: Vec<Record> = Vec::new();
    for line in text.split_terminator('\n') {
        let name = Name::of(line);
        match (records.last_mut(), name) {
            (Some(Record { name: Name::Init { .. }, lines }), Name::Later { .. }) => lines.push(line),
            _ => records.push(Record { name, lines: vec![line] }),
        }
    }
    records
}

// ---- side by side

/// What became of the records of `old` in `new`. Both are lines with a newline behind each.
///
/// Equal records are paired first, then those with the same address and size, and for WIN lines the same type, then those
/// with the same address; each time in their order.
pub fn differences<'a>(old: &'a str, new: &'a str) -> Differences<'a> {
    let (old_records, new_records) = (records(old), records(new));
    let (mut old, mut new) = (placed(&old_records), placed(&new_records));
    let equal = take_pairs(&mut old, &mut new, |record| &record.lines);
    let mut changed = take_pairs(&mut old, &mut new, |record| record.name);
    changed.extend(take_pairs(&mut old, &mut new, |record| record.name.address()));

    let mut found: Vec<Difference> = Vec::new();
    found.extend(old.iter().map(|record| record.thing.difference(What::Removed, Sign::Old)));
    found.extend(changed.iter().map(|(old, new)| change(old.thing, new.thing)));
    found.extend(new.iter().map(|record| record.thing.difference(What::Added, Sign::New)));
    for record in moved(&equal) {
        let before = record.place.checked_sub(1).map(|place| new_records[place].name);
        let lines = record.thing.lines[..1].iter().map(|&line| (Sign::Both, line)).collect();
        found.push(Difference { what: What::Moved, name: record.thing.name, behind: before, lines });
    }
    found.sort_by_key(|difference| difference.name.address());
    Differences(found)
}

/// The lines in which two records differ: INIT first, then by address.
fn change<'a>(old: &Record<'a>, new: &Record<'a>) -> Difference<'a> {
    let (mut old_lines, mut new_lines) = (placed(old.lines.clone()), placed(new.lines.clone()));
    let equal = take_pairs(&mut old_lines, &mut new_lines, |line| line);
    let mut lines: Vec<(Sign, &str)> = Vec::new();
    lines.extend(old_lines.iter().map(|line| (Sign::Old, line.thing)));
    lines.extend(new_lines.iter().map(|line| (Sign::New, line.thing)));
    lines.extend(moved(&equal).map(|line| (Sign::Both, line.thing)));
    lines.sort_by_key(|&(sign, line)| {
        let name = Name::of(line);
        (matches!(name, Name::Later { .. }), name.address(), sign)
    });
    Difference { what: What::Changed, name: old.name, behind: None, lines }
}

type Pair<T> = (Placed<T>, Placed<T>);

/// Takes things with equal keys out of both lists, in their order. The pairs stand in the order of the old ones.
fn take_pairs<T: Copy, K: Eq + Hash>(
    old: &mut Vec<Placed<T>>,
    new: &mut Vec<Placed<T>>,
    key: impl Fn(T) -> K,
) -> Vec<Pair<T>> {
    let mut waiting: HashMap<K, VecDeque<usize>> = HashMap::new();
    for (at, one) in new.iter().enumerate() {
        waiting.entry(key(one.thing)).or_default().push_back(at);
    }
    let mut taken = vec![false; new.len()];
    let mut pairs = Vec::new();
    old.retain(|one| match waiting.get_mut(&key(one.thing)).and_then(VecDeque::pop_front) {
        Some(at) => {
            taken[at] = true;
            pairs.push((*one, new[at]));
            false
        }
        None => true,
    });
    let mut taken = taken.iter();
    new.retain(|_| taken.next() == Some(&false));
    pairs
}

/// The new ones of the pairs that stand at another place: those outside of a longest run with the same order on both sides.
fn moved<T: Copy>(pairs: &[Pair<T>]) -> impl Iterator<Item = Placed<T>> + '_ {
    let place = |pair: usize| pairs[pair].1.place;
    // Of the runs of n + 1 pairs so far, ends[n] is the last pair of the one that ends first.
    let mut ends: Vec<usize> = Vec::new();
    let mut before: Vec<Option<usize>> = Vec::new();
    for pair in 0..pairs.len() {
        let length = ends.partition_point(|&end| place(end) < place(pair));
        before.push(length.checked_sub(1).map(|shorter| ends[shorter]));
        match ends.get_mut(length) {
            Some(end) => *end = pair,
            None => ends.push(pair),
        }
    }
    let mut stays = vec![false; pairs.len()];
    let mut run = ends.last().copied();
    while let Some(pair) = run {
        stays[pair] = true;
        run = before[pair];
    }
    (0..pairs.len()).filter(move |&pair| !stays[pair]).map(|pair| pairs[pair].1)
}
