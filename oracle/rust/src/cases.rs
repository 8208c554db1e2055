//! The cases of `tests/cases` and other books in readable form; `tools/book` describes both.

use model::files;
use std::fs;

/// What a case says of one call: its line, the number and the limit, and the text where all of it fits.
pub struct Call {
    pub line: usize,
    pub number: u32,
    pub limit: u32,
    pub text: Option<String>,
}

/// The words of a file: text where its name ends in `.txt`, else a book. A broken last word makes it no book.
pub fn book(file: &str) -> Result<Vec<u32>, String> {
    let bytes = fs::read(file).map_err(|error| format!("{file}: {error}"))?;
    if file.ends_with(".txt") {
        return case(&String::from_utf8_lossy(&bytes)).map(|case| case.0).map_err(|what| format!("{file}: {what}"));
    }
    words(&bytes).map_err(|what| format!("{file}: {what}"))
}

/// A case's book, and the calls behind it.
pub fn case(text: &str) -> Result<(Vec<u32>, Vec<Call>), String> {
    let mut readable = String::new();
    let mut calls: Vec<Call> = Vec::new();
    for (i, line) in text.lines().enumerate() {
        match calls.last_mut() {
            _ if line.starts_with("expect ") => calls.push(call(i + 1, line)?),
            None => readable.push_str(&format!("{line}\n")),
            Some(Call { text: Some(text), .. }) => text.push_str(&format!("{line}\n")),
            Some(_) => (),
        }
    }
    let bytes = book_form::make(&readable).map_err(|error| error.to_string())?;
    Ok((words(&bytes)?, calls))
}

fn call(line: usize, expected: &str) -> Result<Call, String> {
    let fields: Vec<&str> = expected.split_whitespace().collect();
    let mut call = Call { line, number: 0, limit: 32, text: Some(String::new()) };
    for field in fields.chunks(2) {
        let value =
            field.get(1).and_then(|word| word.parse().ok()).ok_or(format!("line {line}: a number is missing"))?;
        match field[0] {
            "expect" => call.number = value,
            "limit" => call.limit = value,
            "room" => call.text = None,
            _ => (),
        }
    }
    Ok(call)
}

fn words(bytes: &[u8]) -> Result<Vec<u32>, String> {
    files::words(bytes).ok_or("the last word is broken".to_string())
}
