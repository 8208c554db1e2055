//! Compares the port with the unchanged Rust on random books, on x64 chains with the second program: `port_vs_rust SEED N [KINDS]`.

use model::rng::Rng;
use model::run::{arguments, Run};
use model::{due, gen};
use port_rust::{compare, plain};

fn main() {
    let words = arguments();
    let mut run = Run::default();
    for book in gen::every_name() {
        compare(&mut run, &plain(book, 32));
    }
    let mut rng = Rng::new(words.seed);
    for _ in 0..words.count {
        compare(&mut run, &gen::case(&mut rng, &words.kinds));
    }
    run.end(&words, &[due::DOMAIN, due::ANSWERED]);
}
