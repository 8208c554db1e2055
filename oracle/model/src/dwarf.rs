//! DWARF entries: rows of rules; only what differs from the rule last seen is written.

use crate::names::name_of;
use crate::words::Words;
use crate::{Judged, Tally};
use std::collections::{BTreeMap, BTreeSet};
use std::fmt::Write;

const MOST_FAMILY: u32 = 10;
const MOST_ROWS: u32 = 1024;
const MOST_RULES: u32 = 64;
const MOST_REGISTER: u32 = 65535;

struct Body {
    family: u32,
    initial: u64,
    load: u64,
    return_register: u16,
    rows: Vec<Row>,
}

struct Row {
    start: u64,
    end: u64,
    cfa: Cfa,
    rules: Vec<(u16, Rule)>,
}

#[derive(Clone, Copy, PartialEq)]
enum Cfa {
    Register(u16, i64),
    Expression,
}

#[derive(Clone, Copy, PartialEq)]
enum Rule {
    Same,
    Offset(i64),
    ValueOffset(i64),
    Register(u16),
    Other,
}

pub fn entry(body: &[u32], tally: &mut Tally) -> Judged {
    let Some(body) = layout(body) else {
        return Judged::Refused(4);
    };
    if body.initial == u64::MAX {
        return Judged::Skipped("skip dwarf initial address");
    }
    let (Some(first), Some(last)) = (body.rows.first(), body.rows.last()) else {
        return Judged::Skipped("skip dwarf no rows");
    };
    if first.start < body.load {
        return Judged::Skipped("skip dwarf below load");
    }
    let below = |row: &Row| row.start != first.start && row.start < body.load;
    if last.end < first.start {
        tally.count("6: dwarf end below start");
        return Judged::Refused(6);
    }
    if body.rows.iter().any(below) {
        tally.count("6: dwarf row below load");
        return Judged::Refused(6);
    }
    tally.note(FAMILIES[body.family as usize]);
    tally.note(if body.load == 0 { "dwarf load address 0" } else { "dwarf load address above 0" });
    Judged::Text(lines(&body, first.start, last.end - first.start, tally))
}

fn lines(body: &Body, first: u64, size: u64, tally: &mut Tally) -> String {
    let mut state = State { cfa: None, rules: BTreeMap::new(), written: BTreeMap::new() };
    let mut text = String::new();
    for row in &body.rows {
        let address = row.start - body.load;
        let init = row.start == first;
        match (state.row(body, row, init, tally), init) {
            (Some(rules), true) => {
                tally.note(if text.is_empty() { "line INIT" } else { "dwarf INIT again" });
                writeln!(text, "STACK CFI INIT {address:x} {size:x}{rules}").unwrap()
            }
            (Some(rules), false) => {
                tally.note("line later, one space");
                writeln!(text, "STACK CFI {address:x}{rules}").unwrap()
            }
            (None, true) => tally.note("dwarf INIT dropped"),
            (None, false) => tally.note("dwarf later dropped"),
        }
    }
    text
}

const FAMILIES: [&str; 11] = [
    "dwarf family 0",
    "dwarf family 1",
    "dwarf family 2",
    "dwarf family 3",
    "dwarf family 4",
    "dwarf family 5",
    "dwarf family 6",
    "dwarf family 7",
    "dwarf family 8",
    "dwarf family 9",
    "dwarf family 10",
];

fn layout(body: &[u32]) -> Option<Body> {
    let mut words = Words(body);
    let family = words.upto(MOST_FAMILY)?;
    let (initial, load) = (words.wide()?, words.wide()?);
    let return_register = register(words.any()?)?;
    let count = words.upto(MOST_ROWS)?;
    let rows = words.many(count, row)?;
    words.end()?;
    let registers = rows.iter().flat_map(|row| row.rules.iter().map(|rule| rule.0));
    let distinct: BTreeSet<u16> = registers.collect();
    (distinct.len() <= MOST_RULES as usize).then_some(Body { family, initial, load, return_register, rows })
}

fn register(word: u32) -> Option<u16> {
    (word <= MOST_REGISTER).then_some(word as u16)
}

fn row(words: &mut Words) -> Option<Row> {
    let (start, end) = (words.wide()?, words.wide()?);
    let (kind, cfa_register, offset) = (words.any()?, words.any()?, words.signed()?);
    let cfa = match kind {
        0 => Cfa::Register(register(cfa_register)?, offset),
        1 => Cfa::Expression,
        _ => return None,
    };
    let count = words.upto(MOST_RULES)?;
    let rules = words.many(count, rule)?;
    let distinct: BTreeSet<u16> = rules.iter().map(|rule| rule.0).collect();
    (distinct.len() == rules.len()).then_some(Row { start, end, cfa, rules })
}

fn rule(words: &mut Words) -> Option<(u16, Rule)> {
    let name = register(words.any()?)?;
    let (kind, value) = (words.any()?, words.wide()?);
    let rule = match kind {
        0 => Rule::Same,
        1 => Rule::Offset(value as i64),
        2 => Rule::ValueOffset(value as i64),
        3 if value <= u64::from(MOST_REGISTER) => Rule::Register(value as u16),
        4 => Rule::Other,
        _ => return None,
    };
    Some((name, rule))
}

/// The CFA and the rules last seen.
struct State {
    cfa: Option<Cfa>,
    rules: BTreeMap<u16, Rule>,
    /// The rules last written, for the table alone.
    written: BTreeMap<u16, Rule>,
}

impl State {
    /// The rules written for a row, or none where its line is dropped.
    fn row(&mut self, body: &Body, row: &Row, init: bool, tally: &mut Tally) -> Option<String> {
        let mut rules = String::new();
        if self.cfa != Some(row.cfa) {
            self.cfa = Some(row.cfa);
            rules.push_str(&cfa_text(body.family, row.cfa, tally).unwrap_or_default());
        } else {
            tally.note("dwarf cfa as before");
        }
        let mut return_differs = false;
        for &(register, rule) in &row.rules {
            if self.rules.insert(register, rule) == Some(rule) {
                tally.note("dwarf rule as before");
                continue;
            }
            return_differs |= register == body.return_register;
            let Some(text) = rule_text(body, register, rule, tally) else {
                continue;
            };
            if self.written.insert(register, rule) == Some(rule) {
                tally.note("dwarf rule back behind an unwritable");
            }
            rules.push_str(&text);
        }
        if rules.is_empty() {
            return None;
        }
        if init {
            rules.push_str(&default_text(body, return_differs, tally).unwrap_or_default());
        }
        Some(rules)
    }
}

/// What an INIT line says of the return address where no rule does.
fn default_text(body: &Body, return_differs: bool, tally: &mut Tally) -> Option<String> {
    if return_differs {
        tally.note("dwarf no default ra: rule differs");
        return None;
    }
    if !(3..=9).contains(&body.family) {
        tally.note("dwarf no default ra: family");
        return None;
    }
    let name = name_of(body.family, body.return_register);
    tally.note(if name.is_some() { DEFAULTS[body.family as usize - 3] } else { "dwarf default ra without name" });
    let name = name?;
    tally.note("rule register");
    Some(format!(" .ra: {name}"))
}

const DEFAULTS: [&str; 7] = [
    "dwarf default ra 3",
    "dwarf default ra 4",
    "dwarf default ra 5",
    "dwarf default ra 6",
    "dwarf default ra 7",
    "dwarf default ra 8",
    "dwarf default ra 9",
];

fn cfa_text(family: u32, cfa: Cfa, tally: &mut Tally) -> Option<String> {
    let Cfa::Register(register, offset) = cfa else {
        tally.note("dwarf cfa expression");
        return None;
    };
    let name = name_of(family, register);
    tally.note(if name.is_some() { "dwarf cfa" } else { "dwarf cfa without name" });
    let name = name?;
    tally.note("rule register + number");
    Some(format!(" .cfa: {name} {offset} +"))
}

fn rule_text(body: &Body, register: u16, rule: Rule, tally: &mut Tally) -> Option<String> {
    let own = name_of(body.family, register);
    let value = match rule {
        Rule::Same => own.map(String::from),
        Rule::Offset(n) => Some(format!(".cfa {n} + ^")),
        Rule::ValueOffset(n) => Some(format!(".cfa {n} +")),
        Rule::Register(other) => name_of(body.family, other).map(String::from),
        Rule::Other => None,
    };
    let of_return = register == body.return_register;
    let name = if of_return { Some(".ra") } else { own };
    let written = name.is_some() && value.is_some();
    tally.note(rule_form(rule, of_return, written));
    if written {
        tally.note(match rule {
            Rule::Offset(_) => "rule at CFA + number",
            Rule::ValueOffset(_) => "rule CFA + number",
            _ => "rule register",
        });
    }
    Some(format!(" {}: {}", name?, value?))
}

fn rule_form(rule: Rule, of_return: bool, written: bool) -> &'static str {
    match (rule, of_return, written) {
        (Rule::Same, true, true) => "dwarf same for .ra",
        (Rule::Same, true, false) => "dwarf same for .ra unwritable",
        (Rule::Same, false, true) => "dwarf same",
        (Rule::Same, false, false) => "dwarf same unwritable",
        (Rule::Offset(_), true, _) => "dwarf offset for .ra",
        (Rule::Offset(_), false, true) => "dwarf offset",
        (Rule::Offset(_), false, false) => "dwarf offset unwritable",
        (Rule::ValueOffset(_), true, _) => "dwarf value offset for .ra",
        (Rule::ValueOffset(_), false, true) => "dwarf value offset",
        (Rule::ValueOffset(_), false, false) => "dwarf value offset unwritable",
        (Rule::Register(_), true, true) => "dwarf register for .ra",
        (Rule::Register(_), true, false) => "dwarf register for .ra unwritable",
        (Rule::Register(_), false, true) => "dwarf register",
        (Rule::Register(_), false, false) => "dwarf register unwritable",
        (Rule::Other, true, _) => "dwarf other for .ra unwritable",
        (Rule::Other, false, _) => "dwarf other unwritable",
    }
}
