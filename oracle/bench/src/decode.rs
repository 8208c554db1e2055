//! The port's decoding of unwind bytes beside plain Rust (plain), on the records of files: both in turn, all records of a file in each round.

use crate::{clock, plain};
use model::decoder::decode;
use model::gen::input::inputs;
use model::records::{distinct, kind, read, Record};
use model::unwind_codes::UnwindCodes;
use model::unwind_info::UnwindInfo;
use model::{Tally, ARM64, X64};
use port::decode::Call;

const ROUNDS: usize = 100;
const INPUTS: u64 = 5000;

/// A decoder with a yardstick.
trait Sides: Call {
    fn plain(bytes: &[u8], lead: Self::Lead, room: &mut [u32]) -> Result<usize, u32>;
}

impl Sides for UnwindInfo {
    fn plain(bytes: &[u8], lead: [u32; 3], room: &mut [u32]) -> Result<usize, u32> {
        plain::unwind_info::decode(bytes, lead, room)
    }
}

impl Sides for UnwindCodes {
    fn plain(bytes: &[u8], lead: [u32; 2], room: &mut [u32]) -> Result<usize, u32> {
        plain::unwind_codes::decode(bytes, lead, room)
    }
}

/// What is lent to both sides: room for any body, and a count.
struct Room {
    body: Vec<u32>,
    count: [u64; 1],
}

impl Room {
    fn new<D: Sides>() -> Self {
        Room { body: vec![0; D::LONGEST], count: [0] }
    }

    fn port<D: Sides>(&mut self, record: &Record<D::Lead>) -> usize {
        let number = D::call(&record.bytes, record.lead, &mut self.body, &mut self.count);
        assert_eq!(number, 0);
        self.count[0] as usize
    }

    fn plain<D: Sides>(&mut self, record: &Record<D::Lead>) -> usize {
        D::plain(&record.bytes, record.lead, &mut self.body).expect("refused")
    }

    /// Both give the model's body; its words.
    fn compared<D: Sides>(&mut self, record: &Record<D::Lead>) -> usize {
        let due = D::body(&record.bytes, record.lead, &mut Tally::default()).expect("refused");
        for side in [Room::port::<D>, Room::plain::<D>] {
            self.body.fill(0);
            let filled = side(self, record);
            assert!(self.body[..filled] == due, "{record:x?}: not the model's body");
        }
        due.len()
    }
}

/// The table of docs/BENCHMARKS.md, a row for each file.
pub fn print_table(files: &[(u32, &str)]) {
    println!("Each file the least of {ROUNDS} times; the last column is the plain Rust's time over the port's:\n");
    println!("| file | functions | distinct | bytes | words | port, ns/byte | plain Rust, ns/byte | times faster |");
    println!("|---|{}", "--:|".repeat(7));
    for (kind, file) in files {
        match *kind {
            X64 => print_row::<UnwindInfo>(file),
            _ => print_row::<UnwindCodes>(file),
        }
    }
}

fn print_row<D: Sides>(file: &str) {
    check_plain::<D>();
    let records = read(file);
    let mut room = Room::new::<D>();
    let words: usize = records.iter().map(|record| room.compared::<D>(record)).sum();
    let bytes: usize = records.iter().map(|record| record.bytes.len()).sum();
    let [mut port, mut plain] = [f64::INFINITY; 2];
    for _ in 0..ROUNDS {
        port = port.min(clock::of_each(1, || records.iter().for_each(|record| _ = room.port::<D>(record))));
        plain = plain.min(clock::of_each(1, || records.iter().for_each(|record| _ = room.plain::<D>(record))));
    }
    let stem = std::path::Path::new(file).file_stem().expect("a file").to_string_lossy();
    println!(
        "| {stem} | {} | {} | {bytes} | {words} | {:.2} | {:.2} | {:.2} |",
        records.len(),
        distinct(&records).len(),
        port / bytes as f64,
        plain / bytes as f64,
        plain / port
    );
}

/// The yardstick does all that the call does: on the generator's inputs it leaves what the model says.
fn check_plain<D: Sides>() {
    for input in inputs::<D>(6, INPUTS) {
        let mut room = vec![7; input.room_len];
        let due = decode::<D>(&input.bytes, input.lead, &room, &mut Tally::default());
        let done = D::plain(&input.bytes, input.lead, &mut room);
        assert_eq!(done, if due.number == 0 { Ok(due.filled) } else { Err(due.number) });
        assert!(room == due.room, "{input:x?}: not the model's room");
    }
}

/// One side `times` over the records of a file, and nothing else of it; `word` is the kind of the records.
pub fn alone(side: &str, word: &str, file: &str, times: usize) {
    match (side, kind(word)) {
        ("decode-port", Some(X64)) => cycle::<UnwindInfo>(Room::port::<UnwindInfo>, file, times),
        ("decode-port", Some(ARM64)) => cycle::<UnwindCodes>(Room::port::<UnwindCodes>, file, times),
        ("decode-plain", Some(X64)) => cycle::<UnwindInfo>(Room::plain::<UnwindInfo>, file, times),
        ("decode-plain", Some(ARM64)) => cycle::<UnwindCodes>(Room::plain::<UnwindCodes>, file, times),
        _ => panic!("decode-port or decode-plain, x64 or arm64"),
    }
}

fn cycle<D: Sides>(side: impl Fn(&mut Room, &Record<D::Lead>) -> usize, file: &str, times: usize) {
    let records = read(file);
    let mut room = Room::new::<D>();
    for record in records.iter().cycle().take(times * records.len()) {
        side(&mut room, record);
    }
}

/// The functions and the bytes of a file of records.
pub fn print_size(word: &str, file: &str) {
    match kind(word) {
        Some(X64) => size(&read::<[u32; 3]>(file)),
        Some(ARM64) => size(&read::<[u32; 2]>(file)),
        _ => panic!("x64 or arm64"),
    }
}

fn size<L>(records: &[Record<L>]) {
    println!("{} {}", records.len(), records.iter().map(|record| record.bytes.len()).sum::<usize>());
}
