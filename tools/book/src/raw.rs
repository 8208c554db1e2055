//! Plain words: books that break the contents rules, and bodies that break their layout.

use crate::line::{Error, Line};
use std::fmt::Write;

const WORDS_A_LINE: usize = 8;

/// Words up to this one are shown in decimal.
const MOST_DECIMAL: u32 = 999;

/// A book of lines `words`, and perhaps `bytes` of a broken last word.
pub fn book(lines: &mut [Line]) -> Result<Vec<u8>, Error> {
    let mut bytes = Vec::new();
    let mut broken = false;
    for line in lines {
        if broken {
            return Err(line.error("nothing stands behind the bytes of a broken word"));
        }
        if line.take("bytes") {
            let last: Vec<u8> = line.numbers("a byte")?;
            if !(1..4).contains(&last.len()) {
                return Err(line.error("a broken word has one to three bytes"));
            }
            bytes.extend(last);
            broken = true;
        } else {
            bytes.extend(words(line)?.iter().flat_map(|word| word.to_le_bytes()));
        }
    }
    Ok(bytes)
}

/// A body that begins with `entry words`.
pub fn body(head: &mut Line, rest: &mut [Line]) -> Result<Vec<u32>, Error> {
    let mut body = words(head)?;
    for line in rest {
        body.extend(words(line)?);
    }
    Ok(body)
}

fn words(line: &mut Line) -> Result<Vec<u32>, Error> {
    line.keyword("words")?;
    line.numbers("a word")
}

pub fn show_book(words: &[u32], broken: &[u8]) -> String {
    let mut text = String::new();
    if words.is_empty() && broken.is_empty() {
        text.push_str("words\n");
    }
    for line in words.chunks(WORDS_A_LINE) {
        writeln!(text, "words{}", numbers(line)).expect("a string grows");
    }
    if !broken.is_empty() {
        let broken: Vec<u32> = broken.iter().copied().map(u32::from).collect();
        writeln!(text, "bytes{}", numbers(&broken)).expect("a string grows");
    }
    text
}

pub fn show_body(body: &[u32]) -> String {
    let mut text = "entry words\n".to_string();
    for line in body.chunks(WORDS_A_LINE) {
        writeln!(text, "  words{}", numbers(line)).expect("a string grows");
    }
    text
}

fn numbers(words: &[u32]) -> String {
    let mut text = String::new();
    for word in words {
        if *word <= MOST_DECIMAL {
            write!(text, " {word}").expect("a string grows");
        } else {
            write!(text, " {word:#x}").expect("a string grows");
        }
    }
    text
}
