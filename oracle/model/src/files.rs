//! Words in files, little-endian. A file of books has for each its limit, its number of words and the words.

use std::fs;

/// A book, and the limit of its call.
pub struct Stored {
    pub limit: u32,
    pub book: Vec<u32>,
}

/// The words of a file's bytes; none where the last one is broken.
pub fn words(bytes: &[u8]) -> Option<Vec<u32>> {
    let whole = bytes.chunks_exact(4);
    whole.remainder().is_empty().then(|| whole.map(|b| u32::from_le_bytes([b[0], b[1], b[2], b[3]])).collect())
}

/// The books of a file; the program ends where it is no such file.
pub fn read(path: &str) -> Vec<Stored> {
    let bytes = fs::read(path).unwrap_or_else(|error| panic!("{path}: {error}"));
    let words = words(&bytes).unwrap_or_else(|| panic!("{path}: the last word is broken"));
    let mut books = Vec::new();
    let mut rest = &words[..];
    while let [limit, count, more @ ..] = rest {
        let (book, behind) = more.split_at_checked(*count as usize).unwrap_or_else(|| panic!("{path}: cut short"));
        books.push(Stored { limit: *limit, book: book.to_vec() });
        rest = behind;
    }
    assert!(rest.is_empty() && !books.is_empty(), "{path}: no file of books");
    books
}

/// The bytes of such a file with one book.
pub fn written(stored: &Stored) -> Vec<u8> {
    let head = [stored.limit, stored.book.len() as u32];
    head.iter().chain(&stored.book).flat_map(|word| word.to_le_bytes()).collect()
}
