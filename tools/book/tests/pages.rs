//! The books in the repository's pages: each stands as indented text before a block with the lines that it gives.

mod common;

use common::{folder, words};
use stacklines::book::{Book, Entry};
use stacklines::{decode_arm64, decode_x64, translate, NO_LIMIT};
use std::fs;

/// The indented blocks of a page.
fn blocks(page: &str) -> Vec<String> {
    let mut blocks = vec![String::new()];
    for line in page.lines() {
        match line.strip_prefix("    ") {
            Some(inside) => *blocks.last_mut().expect("a block") += &format!("{inside}\n"),
            None => blocks.push(String::new()),
        }
    }
    blocks.retain(|block| !block.is_empty());
    blocks
}

fn is_book(block: &str) -> bool {
    let first = block.lines().next().unwrap_or("");
    ["x64", "arm64", "dwarf", "pdb"].contains(&first) || first.starts_with("words ")
}

/// Holds the books of a page to the blocks behind them, and counts them.
fn books(name: &str) -> usize {
    let page = fs::read_to_string(folder("").join(name)).unwrap();
    let blocks = blocks(&page);
    let pairs: Vec<&[String]> = blocks.windows(2).filter(|pair| is_book(&pair[0])).collect();
    for pair in &pairs {
        let book = book_form::make(&pair[0]).unwrap();
        assert_eq!(translate(&words(&book), NO_LIMIT).unwrap().as_str(), pair[1], "{name}");
    }
    pairs.len()
}

#[test]
fn books_of_pages_have_their_lines() {
    assert_eq!([books("README.md"), books("docs/BOOK.md")], [4, 2]);
}

/// The x64 bytes of BOOK.md have the body of the book that it shows, the ARM64 codes that of a specimen's first function.
#[test]
fn unwind_bytes_of_the_page() {
    let blocks = blocks(&fs::read_to_string(folder("docs").join("BOOK.md")).unwrap());
    let book = book_form::make(blocks.iter().find(|block| is_book(block)).unwrap()).unwrap();
    let bytes: Vec<Vec<u8>> = blocks.iter().filter_map(|block| book_form::hex(block).ok()).collect();
    let [x64, arm64] = &bytes[..] else { panic!("{} blocks of bytes", bytes.len()) };
    let function = decode_x64(x64, 0x1000, 0x1040, 0x5000).unwrap();
    assert_eq!(Book::X64(vec![function]).words().unwrap(), words(&book));
    let specimen = words(&fs::read(folder("specimens").join("arm64.book")).unwrap());
    let (from, length) = (specimen[2] as usize, specimen[3] as usize);
    let function = decode_arm64(arm64, 0x1000, 0x9c).unwrap();
    assert_eq!(function.write(&[]).unwrap(), specimen[from..from + length]);
}
