//! The port beside the unchanged Rust: `bench tables FILE..` prints the tables of docs/BENCHMARKS.md, for realistic books and for those of the files;
//! `bench port BOOKS TIMES` and `bench rust BOOKS TIMES` run one side alone, for a profiler;
//! `bench size BOOKS` prints the words and the bytes of the Rust's text of the books that they run, `bench text BOOKS` the text;
//! `bench sample FILE WORDS` writes a file with one book of at most so many words, its entries taken evenly from all of the file.
//! `bench decode x64 FILE.. arm64 FILE..` prints the table of the decoding, for files of unwind bytes (model/src/records.rs); with CPU for x64 or
//! arm64, `bench decode-port CPU FILE TIMES` and `bench decode-plain CPU FILE TIMES` run one side alone, and `bench decode-size CPU FILE` prints the
//! functions and the bytes of the file.
//! BOOKS is a kind, for its full realistic books, or a file of books (model/src/files.rs), all with limit 32.

mod clock;
mod decode;
mod plain;
mod realistic;
mod sides;
mod stack;

use model::book::{assemble, bodies};
use model::files::{self, Stored};
use model::records;
use model::rng::Rng;
use model::{gen, ALL_KINDS};
use rust::{prepare, Prepared};
use sides::{text_room, Both, Port, NO_LIMIT};
use std::io::Write;

const NAMES: [&str; 4] = ["x64", "ARM64", "DWARF", "PDB"];
const BOOKS: usize = 8;
const ROUNDS: usize = 60;
const RANDOM_BOOKS: usize = 1000;

/// Entries of the books that grow.
const COUNTS: [usize; 6] = [1, 4, 16, 64, 256, 1024];

const USAGE: &str = "bench tables FILE.. | port|rust BOOKS TIMES | size|text BOOKS | sample FILE WORDS\n\
    bench decode x64 FILE.. arm64 FILE.. | decode-port|decode-plain CPU FILE TIMES | decode-size CPU FILE";

fn main() {
    let words: Vec<String> = std::env::args().collect();
    match &words[1..] {
        [tables, files @ ..] if tables == "tables" => print_tables(files),
        [table, words @ ..] if table == "decode" => decode::print_table(&records::files(words)),
        [size, cpu, file] if size == "decode-size" => decode::print_size(cpu, file),
        [side, cpu, file, times] => decode::alone(side, cpu, file, times.parse().expect("TIMES")),
        [size, books] if size == "size" => print_size(&books_of(books)),
        [text, books] if text == "text" => print_text(&books_of(books)),
        [sample, file, most] if sample == "sample" => print_sample(&read_books(file), most.parse().expect("WORDS")),
        [side, books, times] => alone(side, &books_of(books), times.parse().expect("TIMES")),
        _ => panic!("{USAGE}"),
    }
}

/// The full books of a kind, or those of a file.
fn books_of(word: &str) -> Vec<Vec<u32>> {
    match word.parse() {
        Ok(kind) => (0..BOOKS).map(|turn| realistic::book(kind, turn)).collect(),
        Err(_) => read_books(word),
    }
}

fn read_books(path: &str) -> Vec<Vec<u32>> {
    let stored = files::read(path);
    assert!(stored.iter().all(|s| s.limit == NO_LIMIT), "{path}: a limit that is not {NO_LIMIT}");
    stored.into_iter().map(|s| s.book).collect()
}

fn name(kind: u32) -> &'static str {
    NAMES[kind as usize - 1]
}

/// The books of one row.
struct Row {
    name: String,
    books: Vec<Both>,
}

impl Row {
    fn new(name: String, books: Vec<Vec<u32>>, port: &mut Port, text: &mut Vec<u8>) -> Self {
        Row { name, books: books.into_iter().map(|book| Both::new(book, port, text)).collect() }
    }
}

fn print_tables(files: &[String]) {
    let (mut port, mut text) = (Port::new(), text_room());
    let mut rows = Vec::new();
    for &kind in ALL_KINDS {
        let books = (0..BOOKS).map(|turn| realistic::book(kind, turn)).collect();
        rows.push(Row::new(format!("{}, generated", name(kind)), books, &mut port, &mut text));
    }
    for file in files {
        let stem = std::path::Path::new(file).file_stem().expect("a file").to_string_lossy();
        rows.push(Row::new(format!("{stem}, real"), read_books(file), &mut port, &mut text));
    }
    for _ in 0..ROUNDS {
        for book in rows.iter_mut().flat_map(|row| &mut row.books) {
            book.time(1, &mut port, &mut text);
        }
    }
    print_rows(&rows);
    println!();
    growth(&mut port, &mut text);
    println!();
    stack_taken(&mut port);
}

fn print_rows(rows: &[Row]) {
    println!("Each book the least of {ROUNDS} times; the last column is the Rust's time over the port's:\n");
    println!("| books | entries | words | bytes of text | port, ns/word | Rust, ns/word | copy, ns/word | port, ns/byte | Rust, ns/byte | copy, ns/byte | times faster |");
    println!("|---|{}", "--:|".repeat(10));
    for row in rows {
        print_row(row);
    }
    let all = |of: fn(&Both) -> f64| rows.iter().flat_map(|row| &row.books).map(of).sum::<f64>();
    println!("\nThe plain copies move {:.1} GB/s.", all(|b| b.copied() as f64) / all(|b| b.copy));
}

fn print_row(Row { name, books }: &Row) {
    let sum = |of: fn(&Both) -> f64| books.iter().map(of).sum::<f64>();
    let (entries, words, bytes) = (sum(|b| b.entries() as f64), sum(|b| b.book.len() as f64), sum(|b| b.bytes as f64));
    let (port, rust, copy) = (sum(|b| b.port), sum(|b| b.rust), sum(|b| b.copy));
    println!(
        "| {name} | {entries} | {words} | {bytes} | {:.2} | {:.2} | {:.2} | {:.2} | {:.2} | {:.2} | {:.2} |",
        port / words,
        rust / words,
        copy / words,
        port / bytes,
        rust / bytes,
        copy / bytes,
        rust / port
    );
}

fn growth(port: &mut Port, text: &mut Vec<u8>) {
    let heads: Vec<String> = COUNTS[..COUNTS.len() - 1].iter().map(usize::to_string).collect();
    println!("Books of so many short functions, ns an entry; the last as many as fit, at most 1,024:\n");
    println!("| kind | side | {} | as many as fit |", heads.join(" | "));
    println!("|---|---|{}", "--:|".repeat(COUNTS.len()));
    for &kind in ALL_KINDS {
        let mut books: Vec<Both> =
            COUNTS.iter().map(|n| Both::new(realistic::uniform_book(kind, *n), port, text)).collect();
        for _ in 0..ROUNDS {
            for book in &mut books {
                book.time((256 / book.entries()).max(1), port, text);
            }
        }
        let most = books.last().map_or(0, Both::entries);
        let row = |of: fn(&Both) -> f64| -> String {
            let each: Vec<String> = books.iter().map(|b| format!("{:.0}", of(b) / b.entries() as f64)).collect();
            each.join(" | ")
        };
        println!("| {} | port | {} ({most}) |", name(kind), row(|b| b.port));
        println!("| {} | Rust | {} ({most}) |", name(kind), row(|b| b.rust));
    }
    println!("\nA call with a book without entries: {:.0} ns.", empty_call(port));
}

/// What a call costs beside its entries, most of it the clearing of the work area.
fn empty_call(port: &mut Port) -> f64 {
    let book = [1, 0];
    (0..ROUNDS).map(|_| clock::of_each(256, || assert_eq!(port.translate(&book), 0))).fold(f64::INFINITY, f64::min)
}

/// Over the full books, and over books of the generator of the comparisons, which go to the limits.
fn stack_taken(port: &mut Port) {
    println!("Bytes of stack that a call changes, the most over the full books and {RANDOM_BOOKS} random ones:\n");
    println!("| {} |", NAMES.join(" | "));
    println!("|{}", "--:|".repeat(NAMES.len()));
    let mut depths = Vec::new();
    for &kind in ALL_KINDS {
        let mut rng = Rng::new(9);
        let random = (0..RANDOM_BOOKS).map(|_| gen::book(&mut rng, kind));
        let books = (0..BOOKS).map(|turn| realistic::book(kind, turn)).chain(random);
        let most = books.map(|book| stack::depth(|| _ = port.translate(&book))).max();
        depths.push(most.unwrap_or(0).to_string());
    }
    println!("| {} |", depths.join(" | "));
}

fn print_size(books: &[Vec<u32>]) {
    let mut text = text_room();
    let (mut words, mut bytes) = (0, 0);
    for book in books {
        prepare(book).translate(&mut text);
        words += book.len();
        bytes += text.len();
    }
    println!("{words} {bytes}");
}

fn print_text(books: &[Vec<u32>]) {
    let mut text = text_room();
    for book in books {
        prepare(book).translate(&mut text);
        print!("{}", String::from_utf8_lossy(&text));
    }
}

/// Each `step`th entry of all books, with the least step that makes one book, of at most so many words.
fn print_sample(books: &[Vec<u32>], most: usize) {
    let all: Vec<Vec<u32>> = books.iter().flat_map(|book| bodies(book).expect("a book")).map(<[u32]>::to_vec).collect();
    let every = |step: usize| assemble(books[0][0], &all.iter().step_by(step).cloned().collect::<Vec<_>>());
    let book = (1..).map(every).find(|book| book.len() <= most && bodies(book).is_some()).expect("a book");
    std::io::stdout().write_all(&files::written(&Stored { limit: NO_LIMIT, book })).expect("standard output");
}

/// One side `times` over the books, and nothing else of it.
fn alone(side: &str, books: &[Vec<u32>], times: usize) {
    let (mut port, mut text) = (Port::new(), text_room());
    match side {
        "port" => books.iter().cycle().take(times * books.len()).for_each(|book| assert_eq!(port.translate(book), 0)),
        "rust" => {
            let objects: Vec<Prepared> = books.iter().map(|book| prepare(book)).collect();
            objects.iter().cycle().take(times * books.len()).for_each(|object| object.translate(&mut text));
        }
        _ => panic!("port or rust"),
    }
}
