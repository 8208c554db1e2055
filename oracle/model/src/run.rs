//! What the comparing programs share: the words of the command, the counts, the coverage table and the last line.

use crate::gen::{self, Case};
use crate::rng::Rng;
use crate::shrink::shrink;
use crate::{Tally, ALL_KINDS};

/// Books that are shown where something differs.
const MOST_SHOWN: u64 = 5;
/// From so many books on, of all kinds, everything that is due must have occurred.
const ENOUGH: u64 = 20_000;

/// The words of a command: SEED N [KINDS], the kinds as numbers with commas; without them all four.
pub struct Arguments {
    pub seed: u64,
    pub count: u64,
    pub kinds: Vec<u32>,
}

pub fn arguments() -> Arguments {
    let words: Vec<String> = std::env::args().collect();
    let number = |i: usize, what: &str| words.get(i).and_then(|w| w.parse().ok()).expect(what);
    let kinds = words.get(3).map_or(ALL_KINDS.to_vec(), |list| {
        list.split(',').map(|kind| kind.parse().expect("KINDS are numbers with commas")).collect()
    });
    Arguments { seed: number(1, "SEED is a number"), count: number(2, "N is a number"), kinds }
}

#[derive(Default)]
pub struct Run {
    pub tally: Tally,
    passed: u64,
    failed: u64,
    books: u64,
    outside: u64,
}

impl Run {
    /// One comparison; `show` prints a book that differs.
    pub fn compared(&mut self, differs: bool, show: impl FnOnce()) {
        self.books += 1;
        if !differs {
            self.passed += 1;
            return;
        }
        self.failed += 1;
        if self.failed <= MOST_SHOWN {
            show();
        }
    }

    /// A book of which nothing can be compared.
    pub fn outside(&mut self) {
        self.books += 1;
        self.outside += 1;
    }

    /// Prints the table and the counts, and ends the program. What is due and never occurred is a failure.
    pub fn end(mut self, words: &Arguments, due: &[&[&str]]) -> ! {
        self.met(words, due);
        self.close()
    }

    /// Prints the table of what was met, and begins another. What is due and never occurred is a failure.
    pub fn met(&mut self, words: &Arguments, due: &[&[&str]]) {
        let tally = std::mem::take(&mut self.tally);
        tally.print();
        let due = due.concat();
        if words.count >= ENOUGH && ALL_KINDS.iter().all(|kind| words.kinds.contains(kind)) {
            let missing = tally.missing(&due);
            self.passed += (due.len() - missing.len()) as u64;
            self.failed += missing.len() as u64;
            for what in missing {
                println!("never occurred: {what}");
            }
        }
    }

    /// Prints the counts alone, and ends the program.
    pub fn close(self) -> ! {
        if self.outside > 0 {
            println!("skipped: {} of {} books outside the Rust's domain", self.outside, self.books);
        }
        println!("{} passed, {} failed", self.passed, self.failed);
        std::process::exit(i32::from(self.failed > 0));
    }
}

/// Compares on random books, as the words of the command say, and ends the program: `found` says what differs on a case.
pub fn random_books(found: impl Fn(&Case, &mut Tally) -> Vec<String>, due: &[&[&str]]) -> ! {
    random_cases(|rng, words| gen::case(rng, &words.kinds), found, due)
}

/// The same on cases that are made by `next`. A book that differs is made small before it is shown.
pub fn random_cases(
    next: impl Fn(&mut Rng, &Arguments) -> Case,
    found: impl Fn(&Case, &mut Tally) -> Vec<String>,
    due: &[&[&str]],
) -> ! {
    let words = arguments();
    let mut rng = Rng::new(words.seed);
    let mut run = Run::default();
    for _ in 0..words.count {
        let case = next(&mut rng, &words);
        let differs = !found(&case, &mut run.tally).is_empty();
        run.compared(differs, || show(&case, &found));
    }
    run.end(&words, due)
}

/// The first of a run about which something is found ends the program, with 1: `found` says of each case what differs on it. `what` names a case.
pub fn first_difference(what: &str, found: impl Iterator<Item = Vec<String>>) {
    let mut cases = 0;
    for found in found {
        if !found.is_empty() {
            println!("{what} {cases}: {}", found.join(", "));
            std::process::exit(1);
        }
        cases += 1;
    }
    println!("no difference in {cases}: {what}");
}

fn show(case: &Case, found: &impl Fn(&Case, &mut Tally) -> Vec<String>) {
    let with = |book: &[u32]| Case { book: book.to_vec(), ..case.clone() };
    let small = with(&shrink(&case.book, &|book| !found(&with(book), &mut Tally::default()).is_empty()));
    println!("{small:?}");
    for line in found(&small, &mut Tally::default()) {
        println!("    {line}");
    }
}
