//! What the builder and the reader check: the contents, the layout and the ranges, from both sides.

mod common;

use common::{first, function, info, x64};
use stacklines::book::arm64::{Arm64, Letter, Operation as Code, Slot};
use stacklines::book::dwarf::{Cfa, Dwarf, Row, Rule};
use stacklines::book::pdb::{Pdb, Range};
use stacklines::book::x64::{Info, Operation, Register, X64};
use stacklines::book::{Book, Entry, MOST_ENTRIES, MOST_WORDS};
use stacklines::{translate, NO_LIMIT};

/// A book with this entry behind the first specimen's like is at fault there.
fn fault<E: Entry + Clone + Default>(good: E, bad: E, what: &str)
where
    Book: From<Vec<E>>,
{
    let fault = Book::from(vec![good.clone(), bad]).words().unwrap_err();
    assert_eq!((fault.number(), fault.entry()), (4, Some(1)));
    assert_eq!(fault.to_string(), format!("entry 1: {what}"));
    assert!(Book::from(vec![good]).words().is_ok());
}

#[test]
fn x64_ranges() {
    fault(first(), function(vec![]), "the number of infos is not 1 to 32");
    fault(function(vec![info(vec![]); 32]), function(vec![info(vec![]); 33]), "the number of infos is not 1 to 32");
    let other = |count| function(vec![info(vec![Operation::Other; count])]);
    fault(other(255), other(256), "an info has more than 255 operations");
    let offset = |frame_offset| function(vec![Info { frame_offset, ..Info::default() }]);
    fault(offset(240), offset(241), "a frame offset is above 240");
}

#[test]
fn arm64_ranges() {
    let other = |count| Arm64 { operations: vec![Code::Other; count], ..Arm64::default() };
    fault(other(1024), other(1025), "an entry has more than 1,024 operations");
}

#[test]
fn dwarf_ranges() {
    let row = |rules: Vec<(u16, Rule)>| Row { start: 0, end: 4, cfa: Cfa::Expression, rules };
    let rows = |count| Dwarf { rows: vec![row(vec![]); count], ..Dwarf::default() };
    fault(rows(1024), rows(1025), "an entry has more than 1,024 rows");
    let same = |count| Dwarf { rows: vec![row((0..count).map(|r| (r, Rule::Same)).collect())], ..Dwarf::default() };
    fault(same(64), same(65), "a row has more than 64 rules");
    let twice = Dwarf { rows: vec![row(vec![(7, Rule::Same), (7, Rule::Other)])], ..Dwarf::default() };
    fault(same(1), twice, "a row has a register twice");
    let mut many = same(64);
    many.rows.push(row(vec![(0, Rule::Same), (64, Rule::Same)]));
    fault(same(64), many, "an entry has rules for more than 64 registers");
}

#[test]
fn pdb_ranges() {
    let range = |start, end| Range { start, end };
    let prologs = |ranges: Vec<Range>| Pdb { prolog_ranges: ranges, ..Pdb::default() };
    let codes = |ranges: Vec<Range>| Pdb { code_ranges: ranges, ..Pdb::default() };
    let many = |count| (0..count).map(|i| range(i, i)).collect();
    fault(prologs(many(16)), prologs(many(17)), "a list has more than 16 ranges");
    fault(codes(many(16)), codes(many(17)), "a list has more than 16 ranges");
    fault(codes(vec![range(5, 5)]), codes(vec![range(5, 4)]), "a range ends before it starts");
    let same = vec![range(5, 6), range(9, 9), range(5, 7)];
    fault(codes(vec![range(5, 6), range(6, 6)]), codes(same), "two ranges of a list have the same start");
    let program = |program: &str| Pdb { string_table: true, program: Some(program.to_string()), ..Pdb::default() };
    fault(program(&"~".repeat(1024)), program(&"~".repeat(1025)), "the program is longer than 1,024 bytes");
    fault(program(" ~"), program("a\tb"), "a byte of the program is not 32 to 126");
    fault(program(""), program("é"), "a byte of the program is not 32 to 126");
    let no_table = |text: &str| Pdb { string_table: false, ..program(text) };
    fault(no_table(""), no_table("x"), "there are a program's bytes without a string table");
}

#[test]
fn sizes_of_a_book() {
    let small = X64 { infos: vec![Info::default()], ..X64::default() };
    assert!(Book::X64(vec![small.clone(); MOST_ENTRIES]).words().is_ok());
    let fault = Book::X64(vec![small; MOST_ENTRIES + 1]).words().unwrap_err();
    assert_eq!((fault.number(), fault.entry()), (3, None));
    // 2 words, then 2 + 3 + 4 * 1,022 words thrice, and the rest.
    let codes = |count| Arm64 { operations: vec![Code::Other; count], ..Arm64::default() };
    let book = |last| Book::Arm64(vec![codes(1022), codes(1022), codes(1022), codes(1022), codes(last)]);
    let words = book(0).words().unwrap();
    assert_eq!(words.len(), 2 + 5 * 5 + 4 * 4 * 1022);
    assert_eq!(book((MOST_WORDS - words.len()) / 4).words().unwrap().len(), 16_383);
    assert_eq!(book((MOST_WORDS - words.len()) / 4 + 1).words().unwrap_err().number(), 3);
}

#[test]
fn unused_words_come_back() {
    let mut words = x64(vec![first(), first()]);
    let at = words.iter().rposition(|&word| word == 32).unwrap() - 1;
    words[at] = 77;
    let (book, unused) = Book::read(&words).unwrap();
    assert_eq!(book, Book::X64(vec![first(), first()]));
    assert_eq!(unused, [[0, 0], [77, 0]]);
    assert_eq!(book.write(&unused).unwrap(), words);
    assert_eq!(book.words().unwrap(), x64(vec![first(), first()]));
}

#[test]
fn letters_above_two_are_kept() {
    let slot = Slot { letter: Letter(7), register: 9, offset: 16 };
    let book = Book::Arm64(vec![Arm64 { operations: vec![Code::Save(slot)], ..Arm64::default() }]);
    let words = book.words().unwrap();
    assert_eq!(words[7..], [2, 7, 9, 16]);
    assert_eq!(Book::from_words(&words).unwrap(), book);
    assert!(translate(&words, NO_LIMIT).unwrap().as_str().contains(" .q9: "));
}

/// One word of the first specimen changed: the reader refuses it where the call does, and with the same number.
#[test]
fn reader_and_call_agree() {
    let good = x64(vec![first()]);
    let mut met = [0; 10];
    for at in 0..good.len() {
        for word in [0, 1, 2, 3, 4, 5, 6, 8, 9, 15, 16, 32, 33, 240, 241, 1025, u32::MAX] {
            let mut words = good.clone();
            words[at] = word;
            let number = translate(&words, NO_LIMIT).map_or_else(|refused| refused.number(), |_| 0);
            let fault = Book::from_words(&words).err().map(|fault| fault.number());
            assert_eq!(fault, Some(number).filter(|number| [3, 4].contains(number)), "{words:?}");
            met[number as usize] += 1;
        }
    }
    assert!(met[0] > 0 && met[3] > 0 && met[4] > 0, "{met:?}");
}

#[test]
fn names_and_numbers() {
    for number in 0..16 {
        let register = Register::from_number(number).unwrap();
        assert_eq!(register.number(), number);
        assert_eq!(Register::from_name(register.name()), Some(register));
    }
    assert_eq!(Register::from_number(16), None);
    assert_eq!((Register::Rbx.number(), Register::R15.name()), (3, "r15"));
}
