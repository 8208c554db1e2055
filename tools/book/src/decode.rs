//! Unwind bytes of one function, decoded into a book.

use book_form::Function;
use stacklines::{decode_arm64, decode_x64};
use stacklines_book::Book;

/// The text of a book with this function alone, or why there is none.
pub fn text(function: Function, bytes: &[u8]) -> Result<String, String> {
    let book = match function {
        Function::X64([begin, end, info]) => decode_x64(bytes, begin, end, info).map(|entry| Book::X64(vec![entry])),
        Function::Arm64([address, size]) => decode_arm64(bytes, address, size).map(|entry| Book::Arm64(vec![entry])),
    };
    // A body may have more words than a book.
    let words = book
        .map_err(|undecoded| undecoded.to_string())?
        .words()
        .map_err(|fault| format!("refused {}: {}", fault.number(), fault.what()))?;
    let bytes: Vec<u8> = words.iter().flat_map(|word| word.to_le_bytes()).collect();
    Ok(book_form::show(&bytes))
}
