//! The Rust crate and the book tool on any book: the crate's call against the model, values and text against the words.

use model::book::{bodies, WORK};
use model::gen::Case;
use model::pdb::Last;
use model::{translate, Judged, Tally, ARM64, DWARF, X64};
use stacklines::book::Book;
use stacklines::Translator;

/// What is wrong with the crate or the tool on this case.
pub fn differences(case: &Case, tally: &mut Tally) -> Vec<String> {
    let mut found = Vec::new();
    let mut check = |holds: bool, what: &str| {
        if !holds {
            found.push(what.to_string());
        }
    };
    let due = translate(&case.book, case.limit, WORK, case.text_len, tally);
    check(called(case, &case.book) == (due.number, due.entries, due.text.clone()), "the call");
    check(fault(&case.book) == fault_due(&case.book), "the reader's fault");
    match Book::read(&case.book) {
        Ok((book, unused)) => {
            let spare = unused.iter().flatten().any(|&word| word != 0);
            tally.note(if spare { "read, with unused words" } else { "read" });
            check(book.write(&unused).as_ref() == Ok(&case.book), "the words of the values");
            let plain = book.words().unwrap_or_default();
            check((plain != case.book) == spare, "unused words as 0");
            check(called(case, &plain) == (due.number, due.entries, due.text), "the call without unused words");
            check(Book::from_words(&plain) == Ok(book), "the values again");
            let plain_words = shown(case).lines().any(|line| line.trim_start().starts_with("words"));
            check(!plain_words, "plain words for a book that can be read");
        }
        Err(fault) if fault.number() == 3 => tally.note("fault 3"),
        Err(_) => tally.note("fault 4"),
    }
    let bytes = bytes(case);
    check(book_form::make(&shown(case)) == Ok(bytes), "the text form");
    found
}

fn called(case: &Case, book: &[u32]) -> (u32, usize, Vec<u8>) {
    let translator = Translator::new().limit(case.limit).most_bytes(case.text_len);
    let (number, done) = match translator.translate(book) {
        Ok(text) => (0, text),
        Err(refused) => (refused.number(), refused.into_done()),
    };
    (number, done.entries(), done.into_string().into_bytes())
}

/// The book's bytes. Some books that cannot be read also lack a byte of their last word: those of cases with another
/// number of counts, which plays no part here.
fn bytes(case: &Case) -> Vec<u8> {
    let mut bytes: Vec<u8> = case.book.iter().flat_map(|word| word.to_le_bytes()).collect();
    let whole = Book::read(&case.book).is_ok();
    if case.counts_len != 2 && !whole {
        bytes.pop();
    }
    bytes
}

fn shown(case: &Case) -> String {
    book_form::show(&bytes(case))
}

/// Number and entry of what the reader finds.
fn fault(book: &[u32]) -> Option<(u32, Option<usize>)> {
    let fault = Book::from_words(book).err()?;
    Some((fault.number(), fault.entry()))
}

/// The same as the model has it: 3 for the contents, 4 at the first body whose layout is broken.
fn fault_due(book: &[u32]) -> Option<(u32, Option<usize>)> {
    let Some(bodies) = bodies(book) else {
        return Some((3, None));
    };
    let tally = &mut Tally::default();
    let broken = bodies.iter().position(|body| {
        let judged = match book[0] {
            X64 => model::x64::entry(body, 32, tally),
            ARM64 => model::arm64::entry(body, tally),
            DWARF => model::dwarf::entry(body, tally),
            _ => model::pdb::entry(body, &mut Last::default(), tally),
        };
        matches!(judged, Judged::Refused(4))
    });
    broken.map(|entry| (4, Some(entry)))
}
