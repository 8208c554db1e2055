//! The first input of a run of `decode_vs_model` about which the port and the model differ: `decode_difference SEED N [KINDS]`, as
//! `first_difference`.

use model::gen::input::inputs;
use model::run::{arguments, first_difference, Arguments};
use model::unwind_codes::UnwindCodes;
use model::unwind_info::UnwindInfo;
use model::Tally;
use port::decode::{against_model, Call};

fn main() {
    let words = arguments();
    find::<UnwindInfo>(&words, "input for x64");
    find::<UnwindCodes>(&words, "input for arm64");
}

fn find<D: Call>(words: &Arguments, what: &str) {
    if words.kinds.contains(&D::KIND) {
        let inputs = inputs::<D>(words.seed, words.count);
        first_difference(what, inputs.map(|input| against_model::<D>(&input, &mut Tally::default())));
    }
}
