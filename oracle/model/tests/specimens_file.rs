//! The stored output of the program `specimens` is what the model gives for its cases.

use model::{outcome, Tally};

const BEFORE: u8 = 46;
const AREA: usize = 8192;

/// Numbers; N* and N: stand for the last three and the last two words, N times more.
fn numbers(part: &str) -> Vec<u32> {
    let mut all: Vec<u32> = Vec::new();
    let spaced = part.replace('*', "* ").replace(':', ": ");
    for word in spaced.split_whitespace() {
        let width = if word.ends_with('*') { 3 } else { 2 };
        match word.strip_suffix(['*', ':']) {
            None => all.extend(word.parse::<u32>()),
            Some(times) => {
                let last = all[all.len() - width..].to_vec();
                for _ in 0..times.parse().expect("a number before * or :") {
                    all.extend(&last);
                }
            }
        }
    }
    all
}

fn same(bytes: &[u8], byte: u8) -> usize {
    bytes.iter().filter(|&&b| b == byte).count()
}

fn case(book: &[u32], limit: u32, work: usize, text: usize) -> String {
    let due = outcome(book, limit, &vec![BEFORE; work], &vec![BEFORE; text], &mut Tally::default());
    let rest = due.work.get(AREA..).unwrap_or_default();
    let mut said = format!(
        ": {} {} {}, work {} {}, text {}\n",
        due.number,
        due.entries,
        due.length,
        same(&due.work, 0),
        same(rest, BEFORE),
        same(&due.text[due.length..], BEFORE)
    );
    if due.length < 200 {
        said.push_str(std::str::from_utf8(&due.text[..due.length]).expect("ASCII"));
    }
    said
}

fn every_limit(book: &[u32]) -> String {
    let number = |limit| outcome(book, limit, &[0; AREA], &[0; 1000], &mut Tally::default()).number;
    let all: String = (0..34).map(|limit| format!(" {}", number(limit))).collect();
    format!(":{all}\n")
}

#[test]
fn stored_output() {
    let folder = concat!(env!("CARGO_MANIFEST_DIR"), "/../../crates/specimens");
    let read = |name: &str| std::fs::read_to_string(format!("{folder}/{name}")).expect(name);
    let mut due = String::new();
    for line in read("stdin").lines().filter(|line| !line.starts_with('#')) {
        let parts: Vec<&str> = line.split('|').collect();
        let [name, given, words] = parts[..] else { continue };
        due.push_str(name.strip_suffix(' ').unwrap_or(name));
        let book = numbers(words);
        due.push_str(&match numbers(given)[..] {
            [limit, work, text] => case(&book, limit, work as usize, text as usize),
            _ => every_limit(&book),
        });
    }
    let stored = read("stdout");
    for (i, (a, b)) in due.lines().zip(stored.lines()).enumerate() {
        assert_eq!(a, b, "line {} of the stored output", i + 1);
    }
    assert_eq!(due, stored);
}
