//! Compares the port with the model: `port_vs_model SEED N [KINDS]`. Every byte of both buffers is compared, also
//! those that must not change.

use model::due;
use model::run::random_books;
use port::{against_model, note_call};

fn main() {
    random_books(
        |case, tally| {
            note_call(case, tally);
            against_model(case, tally)
        },
        &[due::DOMAIN, due::CALLS],
    )
}
