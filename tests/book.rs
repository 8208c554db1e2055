//! Holds docs/BOOK.md to the definitions: its registers' names are those of the tables, and it has each clause that a definition cites.

use super::{files, quoted, read, tables, Tally};
use std::path::Path;

/// A family's name on the page, and its table's in the definitions.
const FAMILIES: [(&str, &str); 6] =
    [("intel32", "i386"), ("amd64", "x86_64"), ("arm32", "arm"), ("arm64", "arm64"), ("ppc32", "ppc"), ("mips32", "mips")];

/// The names of a table in Tables.antt.
fn table(source: &str, name: &str) -> Vec<String> {
    let head = format!("\n{name} =\n");
    let start = source.find(&head).unwrap_or_else(|| panic!("no table {name}")) + head.len();
    let body = source[start..].split("[]").next().expect("its end");
    body.split("ascii \"").skip(1).map(|rest| rest.split('"').next().unwrap_or("").to_string()).collect()
}

/// The names of a row: '0 `$eax`', or '11 to 18 `$st0`', which counts on.
fn listed(cell: &str) -> Option<Vec<String>> {
    let mut names = Vec::new();
    for item in cell.split(", ") {
        let (numbers, name) = item.strip_suffix('`')?.split_once(" `")?;
        let (from, to) = numbers.split_once(" to ").unwrap_or((numbers, numbers));
        let (from, to): (usize, usize) = (from.parse().ok()?, to.parse().ok()?);
        let stem = name.trim_end_matches(|c: char| c.is_ascii_digit());
        names.resize(from, String::new());
        if from == to {
            names.push(name.to_string());
        } else {
            let first: usize = name[stem.len()..].parse().ok()?;
            names.extend((0..=to - from).map(|i| format!("{stem}{}", first + i)));
        }
    }
    Some(names)
}

fn registers(t: &mut Tally, page: &str) {
    // 64-bit ARM's names go by a rule; its table is the one that the rule is proved against.
    let source = read("crates/tables/specs/Tables.antt") + &read("crates/names/specs/Arm64.antt");
    let rows: Vec<Vec<&str>> = tables(page).into_iter().filter(|x| x[0] == ["family", "in a book", "names"]).flatten().collect();
    for (family, name) in FAMILIES {
        let row = rows.iter().find(|row| row[0].split(", ").next() == Some(family));
        let names = row.and_then(|row| listed(row[2]));
        t.check(names == Some(table(&source, name)), &format!("BOOK.md: the names of {family} are not those of the table {name}"));
    }
    let x64 = table(&source, "pe_x64").join(" ");
    t.check(page.lines().flat_map(quoted).any(|q| q == x64), "BOOK.md: the names of x64 registers are not those of the table pe_x64");
}

/// The clauses that a definition cites: 'document 01, NAME' and '01, NAME:'.
fn cited(line: &str) -> Option<&str> {
    let rest = line.split_once("(document 01, ").or_else(|| line.split_once("-- 01, "))?.1;
    rest.split([')', ':', ';']).next()
}

fn clauses(t: &mut Tally, page: &str) {
    let there: Vec<&str> = page.lines().filter_map(|l| l.trim_start_matches('#').strip_prefix(' ').filter(|_| l.starts_with('#'))).collect();
    let known = |name: &str| there.contains(&name) || name.starts_with("refusal ") || name == "Specimens";
    for path in files(Path::new("crates"), ".antt") {
        for clause in read(&path).lines().filter_map(cited) {
            for name in clause.split(" and ").map(|name| name.trim_matches('"')) {
                t.check(known(name), &format!("{}: BOOK.md has no clause '{name}'", path.display()));
            }
        }
    }
}

pub fn held(t: &mut Tally, page: &str) {
    registers(t, page);
    clauses(t, page);
}
