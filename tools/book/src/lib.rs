//! Books as readable text: one thing a line, in the words of the field. README.md describes the form.
//!
//! [`make`] turns text into a book, [`show`] a book into text. What `show` gives, `make` turns into the same bytes, for
//! every file: words that no kind reads are shown behind their line, bodies that break their layout and books
//! that break the contents rules as plain words. [`differences`] puts the STACK lines of two books side by side, and [`hex`]
//! reads bytes that are to be decoded.

#![deny(missing_docs)]
#![forbid(unsafe_code)]

mod arm64;
mod differences;
mod dwarf;
mod hex;
mod line;
mod pdb;
mod raw;
mod x64;

pub use differences::{differences, Differences};
pub use hex::{function, hex, hex_words, Function};
pub use line::Error;

use line::Line;
use stacklines_book::{assemble, bodies, Arm64, Dwarf, Entry, Kind, Pdb, MOST_ENTRIES, MOST_WORDS, X64};

/// An entry that has a readable form.
trait Form: Entry {
    /// The entry of an `entry` line and the lines behind it, with its unused words.
    fn parse(head: &mut Line, rest: &mut [Line]) -> Result<(Self, Vec<u32>), Error>;

    /// The entry's lines.
    fn show(&self, unused: &mut Unused) -> String;
}

/// The unused words of an entry, taken in turn.
struct Unused<'a>(std::slice::Iter<'a, u32>);

impl Unused<'_> {
    /// What a line says of its unused words: nothing where they are 0.
    fn take(&mut self, count: usize) -> String {
        let words: Vec<u32> = self.0.by_ref().take(count).copied().collect();
        if words.iter().all(|&word| word == 0) {
            return String::new();
        }
        let words: Vec<String> = words.iter().map(u32::to_string).collect();
        format!(" unused {}", words.join(" "))
    }
}

/// The kinds with the words that name them.
const KINDS: [(Kind, &str); 4] =
    [(Kind::X64, "x64"), (Kind::Arm64, "arm64"), (Kind::Dwarf, "dwarf"), (Kind::Pdb, "pdb")];

/// The bytes of the book that a text describes.
pub fn make(text: &str) -> Result<Vec<u8>, Error> {
    let mut lines = line::lines(text)?;
    let Some(first) = lines.first_mut() else {
        return Err(Error::new(1, "there is no book: the first line is x64, arm64, dwarf, pdb or words"));
    };
    if first.is("words") || first.is("bytes") {
        return raw::book(&mut lines);
    }
    let name = first.word("a kind of book")?;
    let Some((kind, _)) = KINDS.iter().find(|kind| kind.1 == name) else {
        return Err(first.error(&format!("there is no kind of book '{name}'")));
    };
    first.end()?;
    let words = match kind {
        Kind::X64 => entries::<X64>(&mut lines[1..]),
        Kind::Arm64 => entries::<Arm64>(&mut lines[1..]),
        Kind::Dwarf => entries::<Dwarf>(&mut lines[1..]),
        Kind::Pdb => entries::<Pdb>(&mut lines[1..]),
    };
    Ok(words?.iter().flat_map(|word| word.to_le_bytes()).collect())
}

/// The book of these lines, each entry of which begins with a line `entry`.
fn entries<E: Form>(lines: &mut [Line]) -> Result<Vec<u32>, Error> {
    let mut bodies = Vec::new();
    let mut words = 2;
    let mut rest = lines;
    while let Some((head, behind)) = rest.split_first_mut() {
        head.keyword("entry")?;
        let length = behind.iter().position(|line| line.is("entry")).unwrap_or(behind.len());
        let (own, next) = behind.split_at_mut(length);
        let body = body::<E>(head, own)?;
        words += 2 + body.len();
        bodies.push(body);
        if bodies.len() > MOST_ENTRIES {
            return Err(head.error("the book has more than 1,024 entries"));
        }
        if words > MOST_WORDS {
            return Err(head.error("the book has more than 16,384 words"));
        }
        rest = next;
    }
    assemble(E::KIND, &bodies).map_err(|fault| Error::new(1, fault.what()))
}

fn body<E: Form>(head: &mut Line, rest: &mut [Line]) -> Result<Vec<u32>, Error> {
    if head.is("words") {
        return raw::body(head, rest);
    }
    let (entry, unused) = E::parse(head, rest)?;
    entry.write(&unused).map_err(|fault| head.error(fault.what()))
}

/// The words of a book's bytes, and the bytes of a broken last word.
pub fn words(book: &[u8]) -> (Vec<u32>, &[u8]) {
    let whole = book.chunks_exact(4);
    let broken = whole.remainder();
    (whole.map(|word| u32::from_le_bytes(word.try_into().expect("four bytes"))).collect(), broken)
}

/// A text that [`make`] turns into these bytes.
pub fn show(book: &[u8]) -> String {
    let (words, broken) = words(book);
    if !broken.is_empty() {
        return format!("# refused 3: the last word is broken\n{}", raw::show_book(&words, broken));
    }
    let (kind, bodies) = match bodies(&words) {
        Ok(contents) => contents,
        Err(fault) => return format!("# refused 3: {fault}\n{}", raw::show_book(&words, &[])),
    };
    let name = KINDS.iter().find(|known| known.0 == kind).expect("each kind has a name").1;
    let mut text = format!("{name}\n");
    for body in bodies {
        text.push_str(&match kind {
            Kind::X64 => show_body::<X64>(body),
            Kind::Arm64 => show_body::<Arm64>(body),
            Kind::Dwarf => show_body::<Dwarf>(body),
            Kind::Pdb => show_body::<Pdb>(body),
        });
    }
    text
}

fn show_body<E: Form>(body: &[u32]) -> String {
    match E::read(body) {
        Ok((entry, unused)) => entry.show(&mut Unused(unused.iter())),
        Err(fault) => format!("# refused 4: {}\n{}", fault.what(), raw::show_body(body)),
    }
}
