//! Writes a fixed sample of the Rust's answers, on x64 chains the second program's, to standard output: `vectors N SEED KIND`. Little-endian words: the
//! number of cases; for each its limit, number, entries, text length in bytes, book length in words, the book, the
//! text padded with zeros to whole words.

use model::gen;
use model::rng::Rng;
use model::Tally;
use rust::{agrees, in_domain, reference, Answer};
use std::collections::BTreeMap;
use std::io::Write;

const MOST_BOOK: usize = 200;
const MOST_TEXT: usize = 1000;

fn main() {
    let words: Vec<String> = std::env::args().collect();
    let count: usize = words[1].parse().expect("N");
    let seed: u64 = words[2].parse().expect("SEED");
    let kind: u32 = words[3].parse().expect("KIND");
    let mut out = (count as u32).to_le_bytes().to_vec();
    let mut rng = Rng::new(seed);
    let mut sample = Sample::default();
    for _ in 0..count {
        let case = sample.next(&mut rng, kind);
        out.extend(case);
    }
    std::io::stdout().write_all(&out).expect("standard output");
}

/// Keeps the sample mixed: a case that shows nothing new is taken only sometimes.
#[derive(Default)]
struct Sample {
    shapes: BTreeMap<String, u32>,
}

impl Sample {
    fn next(&mut self, rng: &mut Rng, kind: u32) -> Vec<u8> {
        loop {
            let case = gen::case(rng, &[kind]);
            if case.book.first() != Some(&kind) || case.book.len() > MOST_BOOK {
                continue;
            }
            let Some((book, done)) = in_domain(&case.book, case.limit, &mut Tally::default()) else {
                continue;
            };
            let answer = reference(&book, case.limit);
            assert!(agrees(&done, &answer), "the model differs from what is due: {:?}", answer.faults);
            if answer.text.len() <= MOST_TEXT && self.wanted(rng, &answer) {
                return encoded(&book, case.limit, done.entries, &answer);
            }
        }
    }

    fn wanted(&mut self, rng: &mut Rng, answer: &Answer) -> bool {
        let shape = format!("{} {}", answer.exceeded, answer.text.len() / 16);
        let seen = self.shapes.entry(shape).or_insert(0);
        *seen += 1;
        rng.one_in(*seen)
    }
}

fn encoded(book: &[u32], limit: u32, entries: usize, answer: &Answer) -> Vec<u8> {
    let number = if answer.exceeded { 5 } else { 0 };
    let head = [limit, number, entries as u32, answer.text.len() as u32, book.len() as u32];
    let mut bytes: Vec<u8> = head.iter().chain(book).flat_map(|word| word.to_le_bytes()).collect();
    bytes.extend(&answer.text);
    bytes.resize(bytes.len().next_multiple_of(4), 0);
    bytes
}
