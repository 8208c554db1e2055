//! One book on both sides: the port's call, and the Rust on an object filled in from the book.

use crate::clock;
use model::book::{MOST_WORDS, WORK};
use rust::{prepare, reference, rust_answer, Prepared};
use std::hint::black_box;

pub const NO_LIMIT: u32 = 32;

/// Room for the text of any book here.
const TEXT: usize = 1 << 22;

pub struct Port {
    work: Vec<u8>,
    text: Vec<u8>,
    counts: [u64; 2],
    /// Where the plain copy goes.
    words: Vec<u32>,
}

impl Port {
    pub fn new() -> Self {
        Port { work: vec![1; WORK], text: vec![1; TEXT], counts: [0; 2], words: vec![1; MOST_WORDS] }
    }

    /// The timed part: the call, with its checks of the whole book and the clearing of the work area.
    pub fn translate(&mut self, book: &[u32]) -> u32 {
        port::translate(book, NO_LIMIT, &mut self.work, &mut self.text, &mut self.counts)
    }

    /// The book's words and a finished text, each copied once and nothing else: the measure of what the machine does at all.
    fn copy(&mut self, book: &[u32], text: &[u8]) {
        self.words[..book.len()].copy_from_slice(black_box(book));
        self.text[..text.len()].copy_from_slice(black_box(text));
        black_box(&self.words);
        black_box(&self.text);
    }

    fn text(&self) -> &[u8] {
        &self.text[..self.counts[1] as usize]
    }
}

pub struct Both {
    pub book: Vec<u32>,
    object: Prepared,
    /// Bytes of the port's text. On x64 chains the Rust writes other numbers, and so perhaps some bytes more or less.
    pub bytes: usize,
    /// The least times met, in nanoseconds.
    pub port: f64,
    pub rust: f64,
    pub copy: f64,
}

impl Both {
    /// Fills in the object, and stops the program where a text is not the one that is due: the Rust's, for the port on x64 chains the second program's.
    pub fn new(book: Vec<u32>, port: &mut Port, text: &mut Vec<u8>) -> Self {
        let (kind, due) = (book[0], reference(&book, NO_LIMIT));
        let object = prepare(&book);
        object.translate(text);
        assert!(text[..] == rust_answer(&book, NO_LIMIT).text, "kind {kind}: the Rust's text differs, as one object");
        let number = port.translate(&book);
        assert!(number == 0 && port.counts[0] == u64::from(book[1]), "kind {kind}: refused {number}");
        assert!(due.faults.is_empty(), "kind {kind}: {:?}", due.faults);
        assert!(port.text() == due.text, "kind {kind}: the port's text is not the one that is due");
        Both { book, object, bytes: due.text.len(), port: f64::INFINITY, rust: f64::INFINITY, copy: f64::INFINITY }
    }

    pub fn entries(&self) -> usize {
        self.book[1] as usize
    }

    /// Bytes that the plain copy moves.
    pub fn copied(&self) -> usize {
        4 * self.book.len() + self.bytes
    }

    /// Both sides and the copy in turn, `times` each.
    pub fn time(&mut self, times: usize, port: &mut Port, text: &mut Vec<u8>) {
        let (book, object) = (&self.book, &self.object);
        let mut number = 0;
        self.port = self.port.min(clock::of_each(times, || number |= port.translate(book)));
        self.rust = self.rust.min(clock::of_each(times, || object.translate(text)));
        self.copy = self.copy.min(clock::of_each(times, || port.copy(book, text)));
        assert!(number == 0);
    }
}

pub fn text_room() -> Vec<u8> {
    Vec::with_capacity(TEXT)
}
