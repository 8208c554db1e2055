//! Compares the lines that cases expect with the unchanged Rust's, in its domain, and with the second program's on x64 chains:
//! `cases_vs_rust [FILES..]`. Without files these are all of `tests/cases`.

use model::Tally;
use rust::cases::{case, Call};
use rust::{in_domain, reference};
use std::path::{Path, PathBuf};
use std::{env, fs, process};

fn main() {
    let (mut passed, mut failed, mut outside) = (0, 0, 0);
    for file in files() {
        let text = fs::read_to_string(&file).unwrap_or_else(|error| panic!("{}: {error}", file.display()));
        let (book, calls) = case(&text).unwrap_or_else(|what| panic!("{}: {what}", file.display()));
        for call in calls {
            match difference(&book, &call) {
                Some(None) => passed += 1,
                None => outside += 1,
                Some(Some(due)) => {
                    failed += 1;
                    println!("{}, line {}: due is\n{due}", file.display(), call.line);
                }
            }
        }
    }
    if outside > 0 {
        let calls = passed + failed + outside;
        println!("skipped: {outside} of {calls} calls outside the Rust's domain, or with a bound for the text");
    }
    println!("{passed} passed, {failed} failed");
    process::exit(i32::from(failed > 0));
}

fn files() -> Vec<PathBuf> {
    let named: Vec<PathBuf> = env::args().skip(1).map(PathBuf::from).collect();
    if !named.is_empty() {
        return named;
    }
    let folder = Path::new(env!("CARGO_MANIFEST_DIR")).join("../../tests/cases");
    let mut files: Vec<PathBuf> =
        fs::read_dir(folder).expect("tests/cases").map(|file| file.expect("a file").path()).collect();
    files.sort();
    files
}

/// What is due where something else is expected. None where the Rust cannot be asked, or where the text may be cut.
fn difference(book: &[u32], call: &Call) -> Option<Option<String>> {
    let text = call.text.as_ref()?;
    let (part, _) = in_domain(book, call.limit, &mut Tally::default())?;
    let answer = reference(&part, call.limit);
    let agrees = answer.text == text.as_bytes() && answer.exceeded == (call.number == 5) && answer.faults.is_empty();
    Some((!agrees).then(|| String::from_utf8_lossy(&answer.text).into_owned() + &answer.faults.join("\n")))
}
