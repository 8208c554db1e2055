//! Two books from files, translated and put side by side.

use stacklines::{translate, Refused, NO_LIMIT};
use std::fs;

pub struct Report {
    pub text: String,
    pub different: bool,
}

/// What differs between the lines of two files, or why they cannot be compared.
pub fn report(old: &str, new: &str) -> Result<Report, String> {
    let (old, new) = match (Lines::of(old), Lines::of(new)) {
        (Ok(old), Ok(new)) => (old, new),
        (Err(old), Err(new)) => return Err(format!("{old}\n{new}")),
        (Err(what), _) | (_, Err(what)) => return Err(what),
    };
    if old.kind != new.kind {
        return Err("books of two kinds".to_string());
    }
    let found = book_form::differences(&old.text, &new.text);
    Ok(Report { text: found.to_string(), different: !found.is_empty() })
}

/// The lines of a book, and the number of its kind.
struct Lines {
    kind: u32,
    text: String,
}

impl Lines {
    fn of(file: &str) -> Result<Lines, String> {
        let bytes = fs::read(file).map_err(|error| format!("{file}: {error}"))?;
        let (words, broken) = book_form::words(&bytes);
        if !broken.is_empty() {
            return Err(format!("{file}: refused 3: the last word is broken"));
        }
        match translate(&words, NO_LIMIT) {
            Ok(text) => Ok(Lines { kind: words[0], text: text.into_string() }),
            Err(refused) => Err(format!("{file}: {}", why(&refused))),
        }
    }
}

fn why(refused: &Refused) -> String {
    let what = format!("refused {}: {}", refused.number(), refused.refusal());
    match refused.entry() {
        None => what,
        Some(1) => format!("{what}, behind 1 entry"),
        Some(entries) => format!("{what}, behind {entries} entries"),
    }
}
