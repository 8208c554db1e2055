//! The books of `specimens`: each text makes its book, each book is shown as text that makes it, and has its lines.

mod common;

use common::{files, folder, words};
use stacklines::{translate, NO_LIMIT};
use std::fs;

#[test]
fn texts_make_their_books() {
    let texts = files("specimens", "txt");
    assert_eq!(texts.len(), 4);
    for text in texts {
        let made = book_form::make(&fs::read_to_string(&text).unwrap()).unwrap();
        assert!(made == fs::read(text.with_extension("book")).unwrap(), "{}", text.display());
    }
}

#[test]
fn books_come_back_from_their_texts() {
    let books = files("specimens", "book");
    assert!(books.len() >= 5);
    for file in books {
        let book = fs::read(&file).unwrap();
        let text = book_form::show(&book);
        assert!(!text.contains("words"), "{}", file.display());
        assert!(book_form::make(&text).unwrap() == book, "{}", file.display());
    }
}

#[test]
fn books_have_their_lines() {
    for file in files("specimens", "lines") {
        let book = fs::read(file.with_extension("book")).unwrap();
        let text = translate(&words(&book), NO_LIMIT).unwrap();
        assert_eq!(text.as_str(), fs::read_to_string(&file).unwrap(), "{}", file.display());
    }
    assert_eq!(files("specimens", "lines").len(), 4);
}

#[test]
fn first_book() {
    let book = fs::read(folder("specimens").join("first.book")).unwrap();
    let due = "x64\nentry begin 0x1000 end 0x1040 info 0x5000\n  info\n    allocate 32\n    push rbx\n";
    assert_eq!(book_form::show(&book), due);
}
