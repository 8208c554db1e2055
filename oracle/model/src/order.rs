//! What the order of infos leaves alone in the line of an x64 chain: begin and size, the register of the CFA, its number where no frame register is
//! set, the names of the rules, the rules that do not count from the CFA.

use crate::unwinder::{parts, SET_FRAME};

/// Where the Rust's line of a body and the second program's differ in it.
pub fn contradictions(body: &[u32], rust: &str, second: &str) -> Vec<String> {
    let (own, due) = (Line::new(rust), Line::new(second));
    let checks = [
        (own.head == due.head, "begin and size"),
        (own.cfa().nth(1) == due.cfa().nth(1), "the register of the CFA"),
        (sets_frame(body) || own.cfa().eq(due.cfa()), "the total"),
        (own.names() == due.names(), "the names of the rules"),
        (own.by_frame() == due.by_frame(), "the rules from a frame register"),
    ];
    let broken = checks.iter().filter(|(holds, _)| !holds);
    let (rust, second) = (rust.trim_end(), second.trim_end());
    broken.map(|(_, what)| format!("{what}: the Rust has '{rust}', the second program '{second}'")).collect()
}

/// The words of a line before its rules, and the rules: of each its name and its value, word by word. The first is the CFA's.
#[derive(Default)]
struct Line<'a> {
    head: Vec<&'a str>,
    rules: Vec<Vec<&'a str>>,
}

impl<'a> Line<'a> {
    fn new(line: &'a str) -> Self {
        let mut made = Line::default();
        for word in line.trim_end_matches('\n').split(' ') {
            match made.rules.last_mut() {
                _ if word.ends_with(':') => made.rules.push(vec![word]),
                Some(rule) => rule.push(word),
                None => made.head.push(word),
            }
        }
        made
    }

    fn cfa(&self) -> impl Iterator<Item = &&str> {
        self.rules.iter().take(1).flatten()
    }

    fn names(&self) -> Vec<String> {
        sorted(self.rules.iter().map(|rule| rule[0].to_string()))
    }

    /// The rules behind the CFA's that do not count from it.
    fn by_frame(&self) -> Vec<String> {
        let rules = self.rules.iter().skip(1).filter(|rule| rule.get(1) != Some(&".cfa"));
        sorted(rules.map(|rule| rule.join(" ")))
    }
}

fn sorted(words: impl Iterator<Item = String>) -> Vec<String> {
    let mut words: Vec<String> = words.collect();
    words.sort();
    words
}

fn sets_frame(body: &[u32]) -> bool {
    parts(body).unwrap_or_default().iter().flat_map(|part| &part.codes).any(|code| code[0] == SET_FRAME)
}
