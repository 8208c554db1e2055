//! Compares the port with the unchanged Rust on the books of files, on x64 chains with the second program: `files_vs_rust FILE..`. A book that is
//! refused fails: of these none is outside the domain, so that nothing is left out unseen.

use model::files;
use model::run::Run;
use model::{translate, Tally};
use port_rust::{compare, plain};

fn main() {
    let mut run = Run::default();
    for file in std::env::args().skip(1) {
        for stored in files::read(&file) {
            let done = translate(&stored.book, stored.limit, usize::MAX, usize::MAX, &mut Tally::default());
            match done.number {
                0 => compare(&mut run, &plain(stored.book, stored.limit)),
                number => run.compared(true, || println!("{file}: refused {number} behind {} entries", done.entries)),
            }
        }
    }
    run.close();
}
