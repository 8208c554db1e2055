//! Prints the lines that the unchanged Rust writes for a book: `rust_lines FILE [LIMIT]`. Entries outside its domain are named on standard error;
//! what the Rust writes for them is printed too, up to an entry that breaks its layout. So are x64 functions with a chain, for which the port
//! writes other lines: those of the second program.

use model::book::{assemble, bodies};
use model::{translate, Tally, X64};
use rust::{cases, chained, rust_answer};
use std::io::Write;
use std::process::exit;

fn main() {
    let words: Vec<String> = std::env::args().skip(1).collect();
    let file = words.first().unwrap_or_else(|| fail("rust_lines FILE [LIMIT]"));
    let limit =
        words.get(1).map_or(Ok(32), |word| word.parse()).unwrap_or_else(|_| fail("LIMIT is a number from 0 to 32"));
    let book = cases::book(file).unwrap_or_else(|what| fail(&what));
    if let number @ 1..=3 = number(&book, limit) {
        fail(&format!("{file}: outside the Rust's domain, refused {number}"));
    }
    let mut filled = Vec::new();
    for (i, body) in bodies(&book).unwrap_or_default().iter().enumerate() {
        let number = number(&assemble(book[0], &[body.to_vec()]), limit);
        if ![0, 5].contains(&number) {
            eprintln!("entry {}: outside the Rust's domain, refused {number}", i + 1);
        } else if book[0] == X64 && chained(body) {
            eprintln!("entry {}: a chain, of which the port runs the parent first", i + 1);
        }
        if number == 4 {
            break;
        }
        filled.push(body.to_vec());
    }
    let answer = rust_answer(&assemble(book[0], &filled), limit);
    std::io::stdout().write_all(&answer.text).expect("standard output");
    if answer.exceeded {
        println!("refused 5");
    }
}

fn number(book: &[u32], limit: u32) -> u32 {
    translate(book, limit, usize::MAX, usize::MAX, &mut Tally::default()).number
}

fn fail(what: &str) -> ! {
    eprintln!("{what}");
    exit(1)
}
