//! The first book of a run of `port_vs_model` about which the port and the model differ: `first_difference SEED N [KINDS]`.
//! Ends with 1 where there is one, and prints its place in the run and what differs. `tests/faults/run` asks it of wrong programs.

use model::gen;
use model::rng::Rng;
use model::run::{arguments, first_difference};
use model::Tally;
use port::against_model;

fn main() {
    let words = arguments();
    let mut rng = Rng::new(words.seed);
    let books = (0..words.count).map(|_| gen::case(&mut rng, &words.kinds));
    first_difference("book", books.map(|case| against_model(&case, &mut Tally::default())));
}
