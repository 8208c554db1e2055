//! A sample of a file of unwind bytes, to standard output: `sample_records x64|arm64 FILE STEP LEAST`. model/src/records.rs says which records it
//! takes.

use model::decoder::Decoder;
use model::records::{kind, read, sample, written};
use model::unwind_codes::UnwindCodes;
use model::unwind_info::UnwindInfo;
use model::{ARM64, X64};
use std::io::Write;

const USAGE: &str = "sample_records x64|arm64 FILE STEP LEAST";

fn main() {
    let words: Vec<String> = std::env::args().collect();
    let [_, word, file, step, least] = &words[..] else { panic!("{USAGE}") };
    let (step, least) = (step.parse().expect("STEP"), least.parse().expect("LEAST"));
    let taken = match kind(word) {
        Some(X64) => sampled::<UnwindInfo>(file, step, least),
        Some(ARM64) => sampled::<UnwindCodes>(file, step, least),
        _ => panic!("{USAGE}"),
    };
    std::io::stdout().write_all(&taken).expect("standard output");
}

fn sampled<D: Decoder>(file: &str, step: usize, least: usize) -> Vec<u8> {
    written(&sample::<D>(&read(file), step, least))
}
