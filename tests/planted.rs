//! Holds the planted faults to the sources, and docs/FAULTS.md and docs/PROOFS.md to the planted faults.

use super::{files, read, stem, tables, Tally};
use std::collections::{BTreeMap, BTreeSet};
use std::fs;
use std::path::Path;

/// What a line of a fault is, and its text.
fn parted(line: &str) -> (&str, &str) {
    let (kind, text) = line.split_once(':').unwrap_or((line, ""));
    (kind, text.strip_prefix(' ').unwrap_or(text))
}

/// The edits of a fault's lines, each as its file and its old text, where a file stands before every old text, and a new text behind it.
fn edits<'a>(mut lines: &[(&'a str, &'a str)]) -> Option<Vec<(&'a str, &'a str)>> {
    let mut found = Vec::new();
    let mut file = None;
    while let [(kind, text), rest @ ..] = lines {
        lines = match (*kind, rest) {
            ("file", [("old", _), ..]) => {
                file = Some(*text);
                rest
            }
            ("old", [("new", _), rest @ ..]) => {
                found.push((file?, *text));
                rest
            }
            _ => return None,
        };
    }
    (!found.is_empty()).then_some(found)
}

/// The faults of a crate, each as its name and its clause; every one is whole, has a name of its own, and its old texts stand once in their files.
fn planted(t: &mut Tally, library: &str, text: &str) -> BTreeMap<String, String> {
    let mut found = BTreeMap::new();
    for fault in text.split("\n\n") {
        let lines: Vec<(&str, &str)> = fault.lines().map(parted).collect();
        let [("fault", name), ("clause", clause), rest @ ..] = &lines[..] else {
            t.check(false, &format!("{library}.edits: no name and clause in '{fault}'"));
            continue;
        };
        let edits = edits(rest).filter(|_| !name.is_empty() && !clause.is_empty());
        t.check(edits.is_some(), &format!("{library}.edits: {name} is not whole"));
        for (file, old) in edits.unwrap_or_default() {
            let source = fs::read_to_string(Path::new("crates").join(library).join(file)).unwrap_or_default();
            let times = source.matches(old).count();
            t.check(times == 1, &format!("{library}.edits: {name}: '{old}' stands {times} times in {file}"));
        }
        let later = found.keys().all(|n: &String| n.as_str() < *name);
        t.check(later, &format!("{library}.edits: {name} stands there twice, or out of order"));
        found.insert(name.to_string(), clause.to_string());
    }
    found
}

/// The page of planted faults counts those that there are; those it lists for the prover are there, and under must-fail.
pub fn held(t: &mut Tally, page: &str, proofs: &str, crates: &BTreeMap<String, BTreeSet<String>>) {
    let listed: Vec<(&str, &str)> = page.lines().filter_map(|l| l.strip_prefix("- `")?.split_once("`: ")).collect();
    let cells = |r: &Vec<&str>| [0, 1, 5].map(|i| r.get(i).map_or("", |c| *c)).join(" ");
    let rows: BTreeSet<String> = tables(page).iter().flat_map(|x| x[1..].iter().map(cells)).collect();
    let mut counted = BTreeSet::new();
    let mut all = BTreeMap::new();
    for path in files(Path::new("tests/faults"), ".edits") {
        let library = stem(&path);
        let found = planted(t, &library, &read(&path));
        let alone = listed.iter().filter(|(name, _)| name.split('/').next() == Some(&library)).count();
        counted.insert(format!("{library} {} {alone}", found.len()));
        all.extend(found.into_iter().map(|(name, clause)| (format!("{library}/{name}"), clause)));
    }
    counted.insert(format!("all {} {}", all.len(), listed.len()));
    for row in &counted {
        t.check(rows.contains(row), &format!("FAULTS.md: no row has '{row}' (crate, faults, the prover alone)"));
    }
    for row in &rows {
        t.check(counted.contains(row), &format!("FAULTS.md: the row of '{row}' (crate, faults, the prover alone) is not so"));
    }
    for (name, clause) in listed {
        t.check(all.get(name).is_some_and(|c| c == clause), &format!("FAULTS.md: there is no fault {name} of '{clause}'"));
        let (library, edit) = name.split_once('/').unwrap_or((name, ""));
        t.check(crates.get(library).is_some_and(|e| e.contains(edit)), &format!("FAULTS.md: {name} is no must-fail edit"));
    }
    for row in tables(proofs).iter().filter(|x| x[0].last() == Some(&"planted fault")).flat_map(|x| &x[1..]) {
        for name in row.last().map_or("", |cell| *cell).split(", ") {
            t.check(all.contains_key(name), &format!("PROOFS.md: there is no fault {name}"));
        }
    }
}
