//! Compares the model with the unchanged Rust, on x64 chains with the second program: `model_vs_rust SEED N [KINDS]`.

use model::rng::Rng;
use model::run::{arguments, Run};
use model::shrink::shrink;
use model::{due, gen, Tally};
use rust::{agrees, differs, in_domain, reference};

fn main() {
    let words = arguments();
    let mut run = Run::default();
    for book in gen::every_name() {
        compare(&mut run, &book, 32);
    }
    let mut rng = Rng::new(words.seed);
    for _ in 0..words.count {
        let case = gen::case(&mut rng, &words.kinds);
        compare(&mut run, &case.book, case.limit);
    }
    run.end(&words, &[due::DOMAIN, due::ANSWERED]);
}

fn compare(run: &mut Run, book: &[u32], limit: u32) {
    let Some((part, done)) = in_domain(book, limit, &mut run.tally) else {
        run.outside();
        return;
    };
    run.compared(!agrees(&done, &reference(&part, limit)), || show(&part, limit));
}

fn show(book: &[u32], limit: u32) {
    let small = shrink(book, &|b| differs(b, limit));
    let (part, done) = in_domain(&small, limit, &mut Tally::default()).expect("a book of the domain");
    let answer = reference(&part, limit);
    println!("limit {limit} book {part:?}");
    println!("model {} {}", done.number, String::from_utf8_lossy(&done.text));
    println!("due {} {}", answer.exceeded, String::from_utf8_lossy(&answer.text));
    answer.faults.iter().for_each(|fault| println!("{fault}"));
}
