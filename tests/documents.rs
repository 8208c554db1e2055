//! Holds the documents to the sources: every name in the tables of ARCHITECTURE.md and PROOFS.md stands in the code, the definitions or the proofs,
//! every law in the file beside it, and every file that they name is there; every public function has a row, every must-fail edit is named, and none
//! that is not there; the planted faults are counted, and each can be planted; what has to be believed is listed (reach.rs), and what a sense shares with the text; no line of a definition or a proof is too long; every link leads to a file.
//!
//! Run from the repository's root. The last line is 'N passed, M failed'.

mod book;
mod planted;
mod reach;
mod tally;

use std::collections::{BTreeMap, BTreeSet};
use std::fs;
use std::path::{Path, PathBuf};
use tally::Tally;

/// Characters of a line of a definition or a proof, at most.
const LONGEST_LINE: usize = 200;

fn read(path: impl AsRef<Path>) -> String {
    let path = path.as_ref();
    fs::read_to_string(path).unwrap_or_else(|e| panic!("{}: {e}", path.display()))
}

/// The files under a folder with this ending, in order; none of those that rt makes, in a crate's out/.
fn files(folder: &Path, ending: &str) -> Vec<PathBuf> {
    let Ok(entries) = fs::read_dir(folder) else { return Vec::new() };
    let mut found = Vec::new();
    for path in entries.map(|e| e.expect("an entry").path()) {
        if path.is_dir() {
            if !path.ends_with("out") {
                found.extend(files(&path, ending));
            }
        } else if path.to_string_lossy().ends_with(ending) {
            found.push(path);
        }
    }
    found.sort();
    found
}

fn stem(path: &Path) -> String {
    path.file_stem().expect("a name").to_string_lossy().into_owned()
}

/// The names in a text, of Rattle or of the definitions.
fn names(text: &str) -> BTreeSet<String> {
    let parts = text.split(|c: char| c.is_whitespace() || "(){}[],;.:<>&\"`|λ".contains(c));
    parts.filter(|p| !p.is_empty()).map(str::to_string).collect()
}

/// What stands between backticks.
fn quoted(cell: &str) -> Vec<&str> {
    cell.split('`').skip(1).step_by(2).collect()
}

/// The tables of a page, each as its rows of cells, the first one its head.
fn tables(page: &str) -> Vec<Vec<Vec<&str>>> {
    let mut found: Vec<Vec<Vec<&str>>> = Vec::new();
    let mut inside = false;
    for line in page.lines() {
        if !line.starts_with('|') {
            inside = false;
            continue;
        }
        if !inside {
            found.push(Vec::new());
        }
        inside = true;
        if !line.starts_with("|--") {
            let cells = line.trim_matches('|').split(" | ").map(str::trim).collect();
            found.last_mut().expect("a table").push(cells);
        }
    }
    found
}

// ---- the parts

/// Every name in the tables stands in the sources.
fn known(t: &mut Tally, page: &str, text: &str, sources: &BTreeSet<String>) {
    for row in tables(text).into_iter().flatten() {
        for span in row.iter().flat_map(|cell| quoted(cell)).filter(|s| !s.contains('"') && !Path::new(s).exists()) {
            for name in names(span).iter().filter(|n| n.parse::<u64>().is_err()) {
                t.check(sources.contains(name), &format!("{page}: `{name}` (in `{span}`) stands nowhere in the sources"));
            }
        }
    }
}

/// Every file of a crate that the page names is there.
fn paths(t: &mut Tally, page: &str, text: &str, crates: &BTreeMap<String, BTreeSet<String>>) {
    let words = text.split(|c: char| c.is_whitespace() || "`(),;|".contains(c)).map(|w| w.trim_end_matches('.'));
    for path in words.filter(|w| [".antt", ".rt", ".edit"].iter().any(|e| w.ends_with(e))) {
        if path.split('/').next().is_some_and(|c| crates.contains_key(c)) {
            t.check(Path::new("crates").join(path).exists(), &format!("{page}: there is no crates/{path}"));
        }
    }
}

/// The files of a cell, under crates/: 'CRATE/specs/FILE, CRATE/specs/FILE', or 'CRATE, CRATE and CRATE: specs/FILE'.
fn places(cell: &str) -> Vec<String> {
    match cell.split_once(": ") {
        Some((crates, file)) => crates.replace(" and ", ", ").split(", ").map(|c| format!("{c}/{file}")).collect(),
        None => cell.split(", ").map(str::to_string).collect(),
    }
}

/// Every law stands in the file beside it.
fn laws(t: &mut Tally, proofs: &str) {
    for table in tables(proofs).iter().filter(|x| x[0][0] == "law") {
        for row in &table[1..] {
            for path in places(row[2]).iter().map(|p| format!("crates/{p}")) {
                let stands = fs::read_to_string(&path).map(|s| names(&s)).unwrap_or_default();
                for law in quoted(row[0]) {
                    let operator = format!("◌{law}◌");
                    t.check(stands.contains(law) || stands.contains(&operator), &format!("PROOFS.md: the law `{law}` does not stand in {path}"));
                }
            }
        }
    }
}

/// The public functions of a library, each as CRATE::FUNCTION or CRATE::TYPE::FUNCTION, with its contract.
fn public(library: &str, source: &str) -> Vec<(String, String)> {
    let mut found: Vec<(String, String)> = Vec::new();
    let mut of = String::new();
    let mut before_body = false;
    for line in source.lines() {
        if let Some(rest) = line.strip_prefix("impl ") {
            of = format!("{}::", rest.split(' ').next().unwrap_or(""));
        } else if line.starts_with('}') {
            of.clear();
        }
        for head in ["pub fn ", "pub extern \"C\" fn "] {
            if let Some(rest) = line.trim_start().strip_prefix(head) {
                found.push((format!("{library}::{of}{}", rest.split(['(', '<']).next().unwrap_or("")), String::new()));
                before_body = true;
            }
        }
        let clause = ["requires", "ensures"].iter().any(|w| line.trim_start().starts_with(w));
        let Some((_, contract)) = found.last_mut().filter(|_| before_body) else { continue };
        if clause || (!contract.is_empty() && line.trim() != "{") {
            *contract += &format!("{line}\n");
        } else if line.ends_with('{') {
            before_body = false;
        }
    }
    found
}

/// Those of all modules of a library; a program has none.
fn public_of(library: &str) -> Vec<(String, String)> {
    let folder = Path::new("crates").join(library).join("src");
    let modules = if folder.join("lib.rt").exists() { files(&folder, ".rt") } else { Vec::new() };
    modules.iter().flat_map(|path| public(library, &read(path))).collect()
}

/// Every public function has a row, and every row a must-fail edit that is there; every edit is named.
fn contracts(t: &mut Tally, proofs: &str, crates: &BTreeMap<String, BTreeSet<String>>) {
    let mut rows = BTreeSet::new();
    let mut named = BTreeSet::new();
    for table in tables(proofs) {
        let Some(column) = table[0].iter().position(|h| *h == "must-fail edit") else { continue };
        for row in &table[1..] {
            let function = quoted(row[0]).first().map(|s| s.to_string()).unwrap_or_default();
            let mut library = function.split("::").next().unwrap_or("").to_string();
            rows.insert(function);
            for edit in row[column].split(", ") {
                let parts: Vec<&str> = edit.split('/').collect();
                if parts.len() > 1 {
                    library = parts[0].to_string();
                }
                let edit = parts.last().expect("an edit").to_string();
                t.check(crates.get(&library).is_some_and(|e| e.contains(&edit)), &format!("PROOFS.md: there is no edit {library}/{edit}"));
                named.insert((library.clone(), edit));
            }
        }
    }
    for (library, edits) in crates {
        for (function, _) in public_of(library) {
            t.check(rows.contains(&function), &format!("PROOFS.md: `{function}` has no row"));
        }
        for edit in edits {
            t.check(named.contains(&(library.clone(), edit.clone())), &format!("PROOFS.md: the edit {library}/{edit} is not named"));
        }
    }
}

/// The names that a file has of the kinds' and the call's definitions, but for those of the code's types and of other senses.
fn taken(text: &str) -> BTreeSet<String> {
    let uses = text.lines().filter_map(|l| l.strip_prefix("use Rattle.")).filter_map(|l| l.trim_end_matches('}').split_once(".{"));
    let kinds = uses.filter(|(m, _)| ["x64", "arm64", "dwarf", "pdb", "translate"].iter().any(|c| m.split('.').next() == Some(c)));
    let others = kinds.filter(|(m, _)| !m.contains("specs.declared") && !m.contains("specs.Sense"));
    others.flat_map(|(_, names)| names.split(", ")).map(str::to_string).collect()
}

/// A sense has of the text's definitions the names in its row, and no others; neither the text nor the code has anything of a sense.
fn shared(t: &mut Tally, proofs: &str) {
    let mut rows = BTreeSet::new();
    for row in tables(proofs).iter().filter(|x| x[0] == ["sense", "shares with the text"]).flat_map(|x| &x[1..]) {
        let listed: BTreeSet<String> = quoted(row[1]).into_iter().map(str::to_string).collect();
        let found = taken(&read(Path::new("crates").join(row[0])));
        t.check(listed == found, &format!("PROOFS.md: {} shares {found:?} with the text, its row has {listed:?}", row[0]));
        rows.insert(Path::new("crates").join(row[0]));
    }
    for path in files(Path::new("crates"), "specs/Sense.antt") {
        t.check(rows.contains(&path), &format!("PROOFS.md: what {} shares with the text has no row", path.display()));
        let folder = path.ancestors().nth(2).expect("a crate");
        for other in files(folder, ".antt").into_iter().chain(files(folder, ".rt")) {
            let of_sense = ["specs/Sense", "proofs/Sense", "specs/Worked"].iter().any(|s| other.starts_with(folder.join(s)) || other == folder.join(format!("{s}.antt")));
            let free = of_sense || !read(&other).contains("specs.Sense");
            t.check(free, &format!("{}: text and code use nothing of a sense", other.display()));
        }
    }
}

/// No line of a definition or a proof is longer than can be read.
fn lengths(t: &mut Tally) {
    for path in &files(Path::new("crates"), ".antt") {
        let longest = read(path).lines().map(|l| l.chars().count()).max().unwrap_or(0);
        t.check(longest <= LONGEST_LINE, &format!("{}: a line of {longest} characters", path.display()));
    }
}

/// The place that a link to a heading names: small letters, no signs, `-` for a space.
fn slug(heading: &str) -> String {
    let kept = heading.trim_matches('#').trim().chars().filter(|c| c.is_alphanumeric() || " -_".contains(*c));
    kept.map(|c| if c == ' ' { '-' } else { c.to_ascii_lowercase() }).collect()
}

/// Every link to a file of the repository leads to one, and to a heading of it where it names one.
fn links(t: &mut Tally, path: &Path, page: &str) {
    for target in page.split("](").skip(1).map(|s| s.split(')').next().unwrap_or("")).filter(|s| !s.contains("://")) {
        let (file, heading) = target.split_once('#').unwrap_or((target, ""));
        let named = if file.is_empty() { path.to_path_buf() } else { path.parent().expect("a folder").join(file) };
        let there = named.exists() && (heading.is_empty() || read(&named).lines().any(|l| l.starts_with('#') && slug(l) == heading));
        t.check(there, &format!("{}: the link to {target} leads nowhere", path.display()));
    }
}

fn main() {
    let mut t = Tally::default();
    let mut crates = BTreeMap::new();
    let mut sources = BTreeSet::new();
    for line in read("crates.txt").lines().filter(|l| !l.starts_with('#')) {
        let Some((name, _)) = line.split_once(':') else { continue };
        let name = name.split_whitespace().next().expect("a name").to_string();
        let folder = Path::new("crates").join(&name);
        for path in files(&folder, ".rt").iter().chain(&files(&folder, ".antt")) {
            sources.extend(names(&read(path)));
        }
        let edits = files(&folder.join("must-fail"), ".edit").iter().map(|p| stem(p)).collect();
        sources.insert(name.clone());
        sources.extend(files(&folder, "stdout").iter().map(|p| stem(p)));
        crates.insert(name, edits);
    }
    let proofs = read("docs/PROOFS.md");
    for page in ["PROOFS.md", "ARCHITECTURE.md", "DECISIONS.md"] {
        let text = read(Path::new("docs").join(page));
        known(&mut t, page, &text, &sources);
        paths(&mut t, page, &text, &crates);
    }
    laws(&mut t, &proofs);
    reach::believed(&mut t, &proofs);
    contracts(&mut t, &proofs, &crates);
    shared(&mut t, &proofs);
    lengths(&mut t);
    planted::held(&mut t, &read("docs/FAULTS.md"), &proofs, &crates);
    book::held(&mut t, &read("docs/BOOK.md"));
    let others = ["README.md", "bindings/rust/README.md", "tools/book/README.md", "oracle/README.md"].map(PathBuf::from);
    for path in files(Path::new("docs"), ".md").iter().chain(&others) {
        links(&mut t, path, &read(path));
    }
    t.end();
}
