//! Compares the port with the second program (model/src/unwinder.rs) on x64 books whose functions are chains of 2 to 32 infos:
//! `chains_vs_unwinder SEED N`. The text is the second program's, all else the model's.

use model::due;
use model::gen::chained_case;
use model::run::random_cases;
use port::chains::against_unwinder;
use port::note_call;

fn main() {
    random_cases(
        |rng, _| chained_case(rng),
        |case, tally| {
            note_call(case, tally);
            against_unwinder(case, tally)
        },
        &[due::CHAINS],
    )
}
