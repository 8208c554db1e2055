//! The cases of `tests/cases`: a book as text, then what the call gives for it. A line `expect NUMBER`, with `entries N`,
//! `limit N` and `room N` where they matter, stands before the lines that are due; a book may have several of them.

mod common;

use common::{files, words};
use stacklines::Translator;
use std::fs;

/// What one call is to give.
#[derive(Debug, PartialEq)]
struct Outcome {
    number: u32,
    entries: usize,
    text: String,
}

/// A call and its outcome.
struct Call {
    line: usize,
    translator: Translator,
    due: Outcome,
}

fn expectation(number: usize, line: &str) -> Result<Call, String> {
    let wrong = || format!("line {number}: expect NUMBER entries N [limit N] [room N]");
    let fields: Vec<&str> = line.split_whitespace().collect();
    let mut due = Outcome { number: 0, entries: 0, text: String::new() };
    let mut translator = Translator::new();
    for field in fields.chunks(2) {
        let [name, value] = field else {
            return Err(wrong());
        };
        let value: usize = value.parse().map_err(|_| wrong())?;
        match *name {
            "expect" => due.number = value as u32,
            "entries" => due.entries = value,
            "limit" => translator = translator.limit(value as u32),
            "room" => translator = translator.most_bytes(value),
            _ => return Err(wrong()),
        }
    }
    Ok(Call { line: number, translator, due })
}

/// The book's text, and the calls behind it.
fn parse(case: &str) -> Result<(String, Vec<Call>), String> {
    let mut book = String::new();
    let mut calls: Vec<Call> = Vec::new();
    for (i, line) in case.lines().enumerate() {
        match calls.last_mut() {
            _ if line.starts_with("expect ") => calls.push(expectation(i + 1, line)?),
            None => book.push_str(&format!("{line}\n")),
            Some(call) if line.starts_with("STACK ") => call.due.text.push_str(&format!("{line}\n")),
            Some(_) => return Err(format!("line {}: neither a STACK line nor 'expect'", i + 1)),
        }
    }
    if calls.is_empty() {
        return Err("nothing is expected".to_string());
    }
    Ok((book, calls))
}

/// How many calls a case has, and what is wrong with them.
fn run(case: &str) -> Result<(usize, Vec<String>), String> {
    let (book, calls) = parse(case)?;
    let book = words(&book_form::make(&book).map_err(|error| error.to_string())?);
    let mut faults = Vec::new();
    for call in &calls {
        let (number, done) = match call.translator.translate(&book) {
            Ok(text) => (0, text),
            Err(refused) => (refused.number(), refused.into_done()),
        };
        let got = Outcome { number, entries: done.entries(), text: done.into_string() };
        if got != call.due {
            faults.push(format!("line {}: {got:#?} for {:#?}", call.line, call.due));
        }
    }
    Ok((calls.len(), faults))
}

#[test]
fn cases() {
    let mut calls = 0;
    let mut failed = Vec::new();
    for file in files("tests/cases", "txt") {
        let case = fs::read_to_string(&file).unwrap();
        let (count, faults) = run(&case).unwrap_or_else(|fault| (1, vec![fault]));
        calls += count;
        failed.extend(faults.into_iter().map(|fault| format!("{}: {fault}", file.display())));
    }
    assert!(failed.is_empty(), "{}", failed.join("\n"));
    assert!(calls >= 20, "only {calls} calls");
}

#[test]
fn wrong_cases_fail() {
    let line = "STACK CFI INIT 1 1 .cfa: $rsp 8 + .ra: .cfa 8 - ^";
    let case = |expected: &str| run(&format!("x64\nentry begin 1 end 2 info 3\n info\n{expected}\n"));
    assert_eq!(case(&format!("expect 0 entries 1\n{line}")), Ok((1, vec![])));
    for wrong in [
        "expect 0 entries 1".to_string(),
        format!("expect 0 entries 0\n{line}"),
        format!("expect 4 entries 1\n{line}"),
        format!("expect 0 entries 1\n{line} "),
        format!("expect 0 entries 1\n{line}\n{line}"),
        format!("expect 0 entries 1 limit 0\n{line}"),
        format!("expect 0 entries 1 room 9\n{line}"),
    ] {
        assert_eq!(case(&wrong).unwrap().1.len(), 1, "{wrong}");
    }
    assert!(case("").is_err());
    assert!(case("expect 0 entries 1\nSTACK CFI INIT\nx64").is_err());
    assert!(case("push rbx\nexpect 0 entries 1").is_ok());
    assert!(case("push rbq\nexpect 0 entries 1").is_err());
}
