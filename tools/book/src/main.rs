//! `book make [FILE]` and `book show [FILE]`: a book from readable text, and back. `book compare A B`: what differs between
//! the STACK lines of two books. `book decode BEGIN END INFO [HEX..]` and `book decode arm64 ADDRESS SIZE [HEX..]`: the text
//! of a book from unwind bytes of an image.

#[cfg(feature = "compare")]
mod compare;
#[cfg(feature = "compare")]
mod decode;

use std::fs;
use std::io::{self, Read, Write};
use std::process::exit;

const USAGE: &str = "book make [FILE]    text to a book, to standard output
book show [FILE]    a book to text that makes the same book
book compare A B    the STACK records that differ between two books; status 0 same, 1 different, 2 bad input
book decode BEGIN END INFO [HEX..]
                    the bytes of an x64 function's UNWIND_INFO to text that makes a book with that function
book decode arm64 ADDRESS SIZE [HEX..]
                    the same for the unwind codes of an ARM64 function
Without FILE or HEX, standard input is read. README.md beside the source describes the text.";

fn main() {
    let words: Vec<String> = std::env::args().skip(1).collect();
    let words: Vec<&str> = words.iter().map(String::as_str).collect();
    match words[..] {
        [command @ ("make" | "show")] => turn(command, None),
        [command @ ("make" | "show"), file] => turn(command, Some(file)),
        ["compare", old, new] => compare(old, new),
        ["decode", first, second, third, ref bytes @ ..] => decode([first, second, third], bytes),
        ["help" | "--help" | "-h"] => println!("{USAGE}"),
        _ => fail(2, USAGE),
    }
}

fn turn(command: &str, file: Option<&str>) {
    let input = input(file);
    let output = match command {
        "show" => book_form::show(&input).into_bytes(),
        _ => bytes_of(name(file), &input, book_form::make),
    };
    print(&output, 1);
}

#[cfg(feature = "compare")]
fn compare(old: &str, new: &str) {
    let report = compare::report(old, new).unwrap_or_else(|what| fail(2, &what));
    print(report.text.as_bytes(), 2);
    exit(i32::from(report.different));
}

#[cfg(feature = "compare")]
fn decode(function: [&str; 3], bytes: &[&str]) {
    let wrong = |error: &book_form::Error| -> ! { fail(2, &format!("book decode: {}", error.what())) };
    let function = book_form::function(function).unwrap_or_else(|error| wrong(&error));
    let bytes = match bytes {
        [] => bytes_of(name(None), &input(None), book_form::hex),
        words => book_form::hex_words(words).unwrap_or_else(|error| wrong(&error)),
    };
    let text = decode::text(function, &bytes).unwrap_or_else(|what| fail(1, &what));
    print(text.as_bytes(), 1);
}

#[cfg(not(feature = "compare"))]
fn compare(_: &str, _: &str) {
    without_archive("compare");
}

#[cfg(not(feature = "compare"))]
fn decode(_: [&str; 3], _: &[&str]) {
    without_archive("decode");
}

#[cfg(not(feature = "compare"))]
fn without_archive(command: &str) {
    let lacks = format!("book {command}: this build has no {command}, which needs the archive");
    fail(2, &format!("{lacks}; 'make lib book' builds one that has it"));
}

fn name(file: Option<&str>) -> &str {
    file.unwrap_or("standard input")
}

fn input(file: Option<&str>) -> Vec<u8> {
    read(file).unwrap_or_else(|error| fail(1, &format!("{}: {error}", name(file))))
}

fn read(file: Option<&str>) -> io::Result<Vec<u8>> {
    match file {
        Some(file) => fs::read(file),
        None => {
            let mut input = Vec::new();
            io::stdin().read_to_end(&mut input)?;
            Ok(input)
        }
    }
}

/// The bytes that a text stands for. What is wrong with it is said with its line.
fn bytes_of(name: &str, input: &[u8], parse: fn(&str) -> Result<Vec<u8>, book_form::Error>) -> Vec<u8> {
    let text = std::str::from_utf8(input).unwrap_or_else(|error| {
        let line = 1 + input[..error.valid_up_to()].iter().filter(|&&byte| byte == b'\n').count();
        fail(1, &format!("{name}:{line}: this is not text"))
    });
    parse(text).unwrap_or_else(|error| fail(1, &format!("{name}:{}: {}", error.line(), error.what())))
}

/// Prints, and ends with this status where that fails.
fn print(output: &[u8], status: i32) {
    let mut to = io::stdout();
    if let Err(error) = to.write_all(output).and_then(|()| to.flush()) {
        if error.kind() != io::ErrorKind::BrokenPipe {
            fail(status, &format!("standard output: {error}"));
        }
    }
}

fn fail(status: i32, what: &str) -> ! {
    eprintln!("{what}");
    exit(status);
}
