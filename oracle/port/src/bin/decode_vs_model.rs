//! Compares the port's decoding of x64 unwind info and of ARM64 unwind codes with the model: `decode_vs_model SEED N [KINDS]`, N inputs of each kind.
//! Every word of the room is compared, also those that must not change.

use model::due;
use model::gen::input::{inputs, note_input, Input};
use model::run::{arguments, Arguments, Run};
use model::shrink::shrink_bytes;
use model::unwind_codes::UnwindCodes;
use model::unwind_info::UnwindInfo;
use model::Tally;
use port::decode::{against_model, Call};

fn main() {
    let words = arguments();
    let mut run = Run::default();
    compare::<UnwindInfo>(&words, &mut run);
    compare::<UnwindCodes>(&words, &mut run);
    run.close()
}

fn compare<D: Call>(words: &Arguments, run: &mut Run) {
    if !words.kinds.contains(&D::KIND) {
        return;
    }
    for input in inputs::<D>(words.seed, words.count) {
        note_input::<D>(&input, &mut run.tally);
        let differs = !against_model::<D>(&input, &mut run.tally).is_empty();
        run.compared(differs, || show::<D>(&input));
    }
    run.met(words, &[due::DECODE, D::DUE]);
}

fn show<D: Call>(input: &Input<D::Lead>) {
    let with = |bytes: &[u8]| Input { bytes: bytes.to_vec(), ..input.clone() };
    let found = |bytes: &[u8]| against_model::<D>(&with(bytes), &mut Tally::default());
    let small = shrink_bytes(&input.bytes, &|bytes| !found(bytes).is_empty());
    println!("{:x?}", with(&small));
    for line in found(&small) {
        println!("    {line}");
    }
}
