//! The text form: what is wrong with a text, and in which line; unused words, plain words and broken books.

mod common;

use book_form::{make, show};
use common::{folder, words};

fn bytes(words: &[u32]) -> Vec<u8> {
    words.iter().flat_map(|word| word.to_le_bytes()).collect()
}

/// The text that shows these words, which makes them again.
fn shown(book: &[u32]) -> String {
    let text = show(&bytes(book));
    assert_eq!(words(&make(&text).unwrap()), book, "{text}");
    text
}

fn check_errors(start: &str, cases: &[(&str, usize, &str)]) {
    for (text, line, what) in cases {
        let error = make(&format!("{start}{text}")).unwrap_err();
        assert_eq!((error.line(), error.what()), (*line, *what), "{start}{text}");
        assert_eq!(error.to_string(), format!("line {line}: {what}"));
    }
}

#[test]
fn errors_of_a_book() {
    let no_book = "there is no book: the first line is x64, arm64, dwarf, pdb or words";
    let cases = [
        ("", 1, no_book),
        ("# nothing\n\n", 1, no_book),
        ("\n\nx86\n", 3, "there is no kind of book 'x86'"),
        ("x64 5", 1, "expected the end of the line, not '5'"),
        ("x64\ninfo\n", 2, "expected 'entry', not 'info'"),
        ("words 1 2\n\nwords 0x100000000", 3, "a word is out of its range: 0x100000000"),
        ("words 1 -1", 1, "a word is out of its range: -1"),
        ("words 1 two", 1, "expected a word, not 'two'"),
        ("words 1 0x", 1, "expected a word, not '0x'"),
        ("words 1\nx64", 2, "expected 'words', not 'x64'"),
        ("bytes 1 2 3 4", 1, "a broken word has one to three bytes"),
        ("bytes 1\nwords 2", 2, "nothing stands behind the bytes of a broken word"),
        ("x64\nentry words 1\npush rbx", 3, "expected 'words', not 'push'"),
    ];
    check_errors("", &cases);
}

#[test]
fn errors_of_x64() {
    let start = "x64\nentry begin 1 end 2 info 3\n";
    let crowded = "info\n".to_string() + &"push rbx\n".repeat(256);
    let cases = [
        ("", 2, "the number of infos is not 1 to 32"),
        ("push rbx", 3, "an operation belongs to an info: expected 'info'"),
        ("info frame rbp", 3, "expected 'offset' at the end of the line"),
        ("info frame 16 offset 0", 3, "there is no register '16'"),
        ("info frame rbp offset 256", 3, "offset is out of its range: 256"),
        ("info frame rbp offset 241", 3, "a frame offset is above 240"),
        ("info\npush", 4, "expected a register at the end of the line"),
        ("info\npop rbx", 4, "there is no operation 'pop'"),
        ("info\npush rbx unused 1 2", 4, "the number of unused words is 1 here, not 2"),
        ("info\n\n# rest\nsave rbx at rbp 5", 6, "expected 'rsp', not 'rbp'"),
        (&crowded, 259, "an info has more than 255 operations"),
        (&"info\n".repeat(33), 35, "the number of infos is not 1 to 32"),
    ];
    check_errors(start, &cases);
    check_errors("x64\nentry begin 1 end", &[("", 2, "expected end at the end of the line")]);
}

#[test]
fn errors_of_arm64() {
    let cases = [
        ("save x256 at 0", 3, "there is no register 'x256'"),
        ("save w1 at 0", 3, "there is no register 'w1'"),
        ("save x1 by 0", 3, "expected 'at', not 'by'"),
        ("save q1 at 0 letter 1", 3, "the letter of a q register is not 0 or 1"),
        ("lrpair d8 at 0", 3, "the register beside lr is an x register"),
        (&"other\n".repeat(1025), 1027, "an entry has more than 1,024 operations"),
    ];
    check_errors("arm64\nentry address 1 size 2\n", &cases);
}

#[test]
fn errors_of_dwarf() {
    let row = "row start 0 end 1 cfa 7 offset 8\n";
    let cases = [
        ("rule 1 same", 3, "a rule belongs to a row: expected 'row'"),
        ("row start 0 end 1 cfa other", 3, "expected a register or 'expression', not 'other'"),
        (&format!("{row}rule 65536 same"), 4, "rule is out of its range: 65536"),
        (&format!("{row}rule 1 offset 9223372036854775808"), 4, "an offset is out of its range: 9223372036854775808"),
        (&format!("{row}rule 1 same\nrule 1 other"), 5, "a row has a register twice"),
        (&row.repeat(1025), 1027, "an entry has more than 1,024 rows"),
    ];
    check_errors("dwarf\nentry family amd64 initial 0 load 0 return 16\n", &cases);
    let family = [("x86 initial 0", 2, "there is no family 'x86'")];
    check_errors("dwarf\nentry family ", &family);
}

#[test]
fn errors_of_pdb() {
    let cases = [
        ("program x", 3, "expected a text in quotes, not 'x'"),
        ("program \"x", 3, "the quoted text does not end"),
        ("program \"\\n\"", 3, "a backslash stands before a quote or a backslash only"),
        ("program \"\t\"", 3, "a byte of the program is not 32 to 126"),
        ("string table\nprogram \"x\"", 4, "the entry has a line about its program already"),
        ("max stack 1\nmax stack 2", 4, "the entry has a line about its max stack already"),
        ("code 5 to 6\ncode 7 to 8\ncode 5 to 9", 5, "two ranges of a list have the same start"),
        ("prolog 5 to 4", 3, "a range ends before it starts"),
        ("epilog 5 to 6", 3, "an entry has no line 'epilog'"),
    ];
    check_errors("pdb\nentry type 4 start 0 size 0 prolog 0 params 0 saved 0 locals 0\n", &cases);
}

#[test]
fn sizes_of_a_book() {
    let entry = "entry address 0 size 0\n";
    let text = |count: usize| format!("arm64\n{}", entry.repeat(count));
    assert_eq!(make(&text(1024)).unwrap().len(), 4 * (2 + 5 * 1024));
    let error = make(&text(1025)).unwrap_err();
    assert_eq!((error.line(), error.what()), (1026, "the book has more than 1,024 entries"));
    let long = |words: usize| format!("x64\nentry words\n{}", "words 0\n".repeat(words));
    assert_eq!(make(&long(16_380)).unwrap().len(), 65_536);
    let error = make(&long(16_381)).unwrap_err();
    assert_eq!((error.line(), error.what()), (2, "the book has more than 16,384 words"));
}

#[test]
fn numbers_comments_and_spaces() {
    let plain = make("x64\nentry begin 4096 end 4160 info 0\ninfo frame rbp offset 16\npush rbx\n").unwrap();
    let same =
        "# a book\r\n\r\n  x64# kind\r\n\tentry begin 0x1000 end 0x1040 info 0 # é\n\ninfo frame 5 offset 0x10\npush 3";
    assert_eq!(make(same).unwrap(), plain);
}

#[test]
fn unused_words_are_shown() {
    let text = shown(&[1, 1, 4, 13, 1, 2, 3, 1, 0, 0, 2, 7, 70_000, 0, 1, 3, 9]);
    assert!(text.contains("    other unused 70000 0\n    push rbx unused 9\n"), "{text}");
    let text = shown(&[4, 1, 4, 15, 4, 1, 2, 3, 4, 5, 6, 0, 7, 0, 1, 0, 0, 0, 0]);
    assert!(text.ends_with("  max stack none unused 7\n  program without table\n"), "{text}");
}

#[test]
fn broken_books_are_shown() {
    assert_eq!(shown(&[]), "# refused 3: the book has fewer than two words\nwords\n");
    assert_eq!(shown(&[5, 0]), "# refused 3: the kind is not 1 to 4\nwords 5 0\n");
    let text = shown(&[2, 2, 6, 1, 7, 3, 999, 1000, 0, 0]);
    assert_eq!(
        text,
        "arm64\n# refused 4: the body ends too early\nentry words\n  words 999\nentry address 0x3e8 size 0x0\n"
    );
    let broken = [1, 0, 0, 0, 0xff, 0];
    assert_eq!(show(&broken), "# refused 3: the last word is broken\nwords 1\nbytes 255 0\n");
    assert_eq!(make(&show(&broken)).unwrap(), broken);
}

/// The indented blocks of README.md that begin as a book does.
fn examples() -> Vec<String> {
    let readme = std::fs::read_to_string(folder("tools/book").join("README.md")).unwrap();
    let blocks = readme.split("\n\n").filter(|block| block.starts_with("    "));
    let kinds = ["x64", "arm64", "dwarf", "pdb", "words"];
    let is_book = |block: &&str| block.split_whitespace().next().is_some_and(|word| kinds.contains(&word));
    blocks.filter(is_book).map(String::from).collect()
}

#[test]
fn examples_of_the_readme() {
    let examples = examples();
    assert_eq!(examples.len(), 8);
    for text in examples {
        let book = make(&text).unwrap_or_else(|error| panic!("{error}\n{text}"));
        let again = show(&book);
        assert_eq!(make(&again).unwrap(), book);
        assert_eq!(again.contains("words"), text.contains("words"), "{again}");
    }
}
