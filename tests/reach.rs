//! What has to be believed: the definitions that the contracts of the public functions and the statements of the demands' laws reach, and that
//! PROOFS.md lists the files of all of them and no others.
//!
//! Of a root its statement counts alone, of whatever is reached from it the whole text: so a proof is gone into only where a definition names it.
//! A word that is the name of something in sight counts as a use of it, even where a variable has that name: too much is reached, never too little.

use crate::tally::Tally;
use crate::{files, places, public, quoted, read, stem, tables};
use std::collections::{BTreeMap, BTreeSet, VecDeque};
use std::path::{Path, PathBuf};

/// A file, as PROOFS.md writes it, and a name in it.
type Place = (String, String);

/// A definition or a law: its type, with the heads of the modules around it, and its clauses.
#[derive(Default)]
struct Item {
    statement: String,
    clauses: String,
}

#[derive(Default)]
struct Source {
    items: BTreeMap<String, Item>,
    /// the type of each constructor
    constructors: BTreeMap<String, String>,
    /// what each word may mean
    sight: BTreeMap<String, Vec<Place>>,
    /// the files that have a short name here
    modules: BTreeMap<String, String>,
}

// ---- reading a file

/// A line without its comment and without what stands in strings.
fn bare(line: &str) -> String {
    let mut kept = String::new();
    let mut inside = false;
    let mut chars = line.chars();
    while let Some(c) = chars.next() {
        match c {
            '\\' if inside => drop(chars.next()),
            '"' => inside = !inside,
            _ if inside => {}
            _ => kept.push(c),
        }
    }
    let end = if kept.trim_start().starts_with("--") { Some(0) } else { kept.find(" -- ") };
    kept.truncate(end.unwrap_or(kept.len()));
    kept.trim_end().to_string()
}

fn indent(line: &str) -> usize {
    line.len() - line.trim_start().len()
}

/// The lines at the left edge, each with those that belong to it: the ones further in, and a bracket that closes.
fn groups(lines: &[String]) -> Vec<Vec<String>> {
    let edge = lines.iter().map(|l| indent(l)).min().unwrap_or(0);
    let mut found: Vec<Vec<String>> = Vec::new();
    for line in lines {
        let goes_on = indent(line) > edge || line.trim_start().starts_with([')', ']', '}']);
        match found.last_mut() {
            Some(group) if goes_on => group.push(line.clone()),
            _ => found.push(vec![line.clone()]),
        }
    }
    found
}

fn first_word(text: &str) -> (&str, &str) {
    text.split_once(char::is_whitespace).unwrap_or((text, ""))
}

/// Whether an item is marked as one, and what stands behind the marks.
fn unmarked(text: &str) -> (bool, &str) {
    match first_word(text) {
        ("unfoldable" | "abbrev" | "pub", rest) => (true, unmarked(rest).1),
        _ => (false, text),
    }
}

/// Whether a colon, outside of brackets, comes before any equals sign.
fn is_statement(text: &str) -> bool {
    let mut depth = 0;
    for word in text.split_whitespace() {
        if depth == 0 && (word == ":" || word == "=") {
            return word == ":";
        }
        for c in word.chars() {
            depth += i32::from("({[".contains(c)) - i32::from(")}]".contains(c));
        }
    }
    false
}

/// The file of a module of the project; none for the code's own types, and for what the kit brings.
fn file_of(module: &str) -> Option<String> {
    let (library, inner) = module.strip_prefix("Rattle.")?.split_once('.')?;
    let ours = Path::new("crates").join(library).exists() && !inner.starts_with("specs.declared");
    ours.then(|| format!("{library}/{}.antt", inner.replace('.', "/")))
}

impl Source {
    fn see(&mut self, word: &str, place: Place) {
        for part in word.split('◌').filter(|p| !p.is_empty()) {
            self.sight.entry(part.to_string()).or_default().push(place.clone());
        }
    }

    /// `MODULE.{x, y as z}` or `MODULE as M`
    fn import(&mut self, used: &str) {
        let module = used.split(".{").next().unwrap_or("").split(" as ").next().unwrap_or("");
        let Some(file) = file_of(module.trim()) else { return };
        if let Some((_, list)) = used.split_once(".{") {
            for entry in list.trim_end().trim_end_matches('}').split(',').map(str::trim).filter(|e| !e.is_empty()) {
                let (name, here) = entry.split_once(" as ").unwrap_or((entry, entry));
                self.see(here, (file.clone(), name.to_string()));
            }
        } else if let Some((_, here)) = used.split_once(" as ") {
            self.modules.insert(here.trim().to_string(), file);
        } else {
            panic!("a use that this test cannot read: {used}");
        }
    }

    /// The items in these lines; `around` has the heads of the modules that they stand in.
    fn define(&mut self, file: &str, lines: &[String], around: &str) {
        let mut last = String::new();
        for group in groups(lines) {
            let text = group.join("\n");
            let (marked, text) = unmarked(text.trim_start());
            let (first, rest) = first_word(text);
            match first {
                "use" => self.import(rest),
                "mod" | "infix" | "infixl" | "infixr" | "unfolding" => {}
                "module" => {
                    let head = group.iter().take_while(|l| !l.ends_with("where")).count() + 1;
                    self.define(file, &group[head..], &format!("{around} {}", group[..head].join(" ")));
                }
                "record" | "data" => {
                    let (name, rest) = first_word(rest);
                    last = name.to_string();
                    self.add(file, name, format!("{around} {rest}"));
                    if first == "data" {
                        self.construct(file, name, &group[1..]);
                    }
                }
                name if (marked || is_statement(text)) && rest.starts_with([':', '{', '(']) => {
                    last = name.to_string();
                    self.add(file, name, format!("{around} {rest}"));
                }
                name if !marked && (self.items.contains_key(name) || last.contains('◌')) => self.clause(name, &last, text),
                _ => panic!("{file}: lines that this test cannot read: {text}"),
            }
        }
    }

    /// An item, and its statement without its name: with it a law would use its own proof.
    fn add(&mut self, file: &str, name: &str, statement: String) {
        self.items.entry(name.to_string()).or_default().statement += &statement;
        self.see(name, (file.to_string(), name.to_string()));
    }

    fn construct(&mut self, file: &str, of: &str, lines: &[String]) {
        for name in lines.iter().filter_map(|l| l.split_once(" : ")).flat_map(|x| x.0.split_whitespace()) {
            self.constructors.insert(name.to_string(), of.to_string());
            self.see(name, (file.to_string(), of.to_string()));
        }
    }

    /// A clause of the item that it begins with; one of an operator begins with a variable, so the last item counts too.
    fn clause(&mut self, name: &str, last: &str, text: &str) {
        for owner in BTreeSet::from([name, last]) {
            if let Some(item) = self.items.get_mut(owner) {
                item.clauses += text;
                item.clauses.push('\n');
            }
        }
    }

    /// What the words of a text may mean here. A word after a point is a field, and its record is reached by the type of what has it.
    fn uses(&self, text: &str) -> BTreeSet<Place> {
        let mut found = BTreeSet::new();
        let words = text.split(|c: char| c.is_whitespace() || "(){}[],;λ".contains(c));
        for word in words.filter(|w| !w.starts_with('.')).map(|w| w.trim_end_matches('.')) {
            if let Some((module, name)) = word.rsplit_once('.') {
                let file = self.modules.get(module).cloned().or_else(|| file_of(module));
                found.extend(file.map(|f| (f, name.to_string())));
            }
            found.extend(word.split('.').filter_map(|part| self.sight.get(part)).flatten().cloned());
        }
        found
    }
}

// ---- what is reached

struct Reach {
    sources: BTreeMap<String, Source>,
    /// by what each item is reached: a root, and the items between, the nearest to the root first
    reached: BTreeMap<Place, (String, Vec<String>)>,
}

impl Reach {
    /// Every file of definitions, and the laws of the demands that stand among proofs.
    fn new() -> Reach {
        let mut sources = BTreeMap::new();
        let of_demand = |p: &Path| ["proofs/Sense.antt", "proofs/Arm64.antt"].iter().any(|end| p.ends_with(end));
        let is_read = |p: &&PathBuf| p.components().nth(2).is_some_and(|c| c.as_os_str() == "specs") || of_demand(p);
        for path in files(Path::new("crates"), ".antt").iter().filter(is_read) {
            let file = path.strip_prefix("crates").expect("under crates").to_string_lossy().into_owned();
            let lines: Vec<String> = read(path).lines().map(bare).filter(|l| !l.is_empty()).collect();
            let mut source = Source::default();
            source.define(&file, &lines, "");
            sources.insert(file, source);
        }
        Reach { sources, reached: BTreeMap::new() }
    }

    /// The item at a place, where it may be a constructor's type.
    fn item(&self, (file, name): &Place) -> Option<(Place, &Item)> {
        let source = self.sources.get(file)?;
        let name = source.constructors.get(name).unwrap_or(name);
        Some(((file.clone(), name.clone()), source.items.get(name)?))
    }

    /// All that these roots reach, each by a shortest way. What stands nowhere is a name that this test reads wrongly, or a wrong one.
    fn from(&mut self, t: &mut Tally, roots: Vec<(String, BTreeSet<Place>)>) {
        let mut queue = VecDeque::new();
        for (root, places) in roots {
            queue.extend(places.into_iter().map(|p| (p, (root.clone(), Vec::new()))));
        }
        while let Some((place, (root, way))) = queue.pop_front() {
            let found = self.item(&place).map(|(p, i)| (p, self.sources[&place.0].uses(&format!("{} {}", i.statement, i.clauses))));
            let Some((place, uses)) = found else {
                t.check(false, &format!("{}: there is no `{}`, which `{root}` reaches", place.0, place.1));
                continue;
            };
            if self.reached.contains_key(&place) {
                continue;
            }
            let mut on = way.clone();
            on.push(place.1.clone());
            queue.extend(uses.into_iter().map(|p| (p, (root.clone(), on.clone()))));
            self.reached.insert(place, (root, way));
        }
    }
}

/// The public functions, each with what its contract uses.
fn contracts() -> Vec<(String, BTreeSet<Place>)> {
    let mut found = Vec::new();
    let modules = files(Path::new("crates"), ".rt").into_iter().filter(|p| p.with_file_name("lib.rt").exists());
    for path in modules {
        let library = stem(path.ancestors().nth(2).expect("a library"));
        let text = read(&path);
        let mut source = Source::default();
        for used in text.split("ghost use ").skip(1) {
            source.import(used.split(';').next().unwrap_or(""));
        }
        found.extend(public(&library, &text).into_iter().map(|(name, contract)| (name, source.uses(&contract))));
    }
    found
}

/// The laws in the table of the demands.
fn demanded(t: &mut Tally, proofs: &str, reach: &Reach) -> BTreeSet<Place> {
    let mut found = BTreeSet::new();
    for row in tables(proofs).iter().filter(|x| x[0] == ["demand", "law", "file"]).flat_map(|x| &x[1..]) {
        for file in places(row[2]) {
            for law in quoted(row[1]) {
                let place = (file.clone(), law.to_string());
                let there = reach.sources.get(&file).is_some_and(|s| s.items.contains_key(law));
                t.check(there, &format!("PROOFS.md: the law `{law}` of demand {} does not stand in {file}", row[0]));
                found.extend(there.then_some(place));
            }
        }
    }
    t.check(!found.is_empty(), "PROOFS.md: there is no table of the demands' laws, | demand | law | file |");
    found
}

/// The files in the table of what is to be believed, each with the definitions that its row names.
fn listed(proofs: &str) -> BTreeMap<String, BTreeSet<String>> {
    let mut found = BTreeMap::new();
    for row in tables(proofs).iter().filter(|x| x[0] == ["file", "what it defines"]).flat_map(|x| &x[1..]) {
        let names: BTreeSet<String> = quoted(row[1]).into_iter().map(str::to_string).collect();
        found.extend(places(row[0]).into_iter().map(|f| (f, names.clone())));
    }
    found
}

/// The table lists every file with something that is reached, and no other. Where a file has more in it, laws or what only proofs need, its row
/// names what is reached.
pub fn believed(t: &mut Tally, proofs: &str) {
    let mut reach = Reach::new();
    let laws = demanded(t, proofs, &reach);
    let mut roots = contracts();
    roots.extend(laws.iter().map(|(f, law)| (law.clone(), reach.sources[f].uses(&reach.sources[f].items[law].statement))));
    reach.from(t, roots);
    let listed = listed(proofs);
    for ((file, name), (root, way)) in &reach.reached {
        let over: Vec<String> = way.iter().map(|n| format!("`{n}`")).collect();
        let by = format!("reached by `{root}`{}{}", if way.is_empty() { "" } else { " over " }, over.join(", "));
        let names = listed.get(file);
        t.check(names.is_some(), &format!("PROOFS.md: `{name}` ({by}) stands in {file}, which is not listed"));
        if let Some(names) = names.filter(|n| !n.is_empty()) {
            t.check(names.contains(name), &format!("PROOFS.md: `{name}` ({by}) stands in {file}, whose row does not name it"));
        }
    }
    for (file, names) in &listed {
        let is_reached = |name: &String| reach.reached.contains_key(&(file.clone(), name.clone()));
        if !reach.reached.keys().any(|p| p.0 == *file) {
            t.check(false, &format!("PROOFS.md: {file} is listed, and nothing in it is reached"));
            continue;
        }
        for name in names {
            t.check(is_reached(name), &format!("PROOFS.md: the row of {file} names `{name}`, which is not reached"));
        }
        let other = |n: &&String| !is_reached(n) && !n.ends_with("·open") && !laws.contains(&(file.clone(), n.to_string()));
        let others: Vec<&str> = reach.sources[file].items.keys().filter(other).map(String::as_str).collect();
        let apart = others.is_empty() || !names.is_empty();
        t.check(apart, &format!("PROOFS.md: the row of {file} has to name what is reached; not reached: {}", others.join(", ")));
    }
}
