//! Compares the port with the model on the unwind bytes of real functions: `records_vs_model x64 FILE.. arm64 FILE..` (model/src/records.rs). Each
//! record is decoded, and none is turned away; then the body, as the one entry of a book, is translated, which must not be refused. An x64 line is
//! also compared with the second program's (model/src/unwinder.rs). Says of each file how many records hold what, and of x64 how many are chains. x64
//! files without any chain fail.

use model::book::{assemble, WORK};
use model::chains::changed;
use model::decoder::Decoder;
use model::gen::input::Input;
use model::gen::Case;
use model::records::{distinct, files, holds, read, Record};
use model::run::Run;
use model::unwind_codes::UnwindCodes;
use model::unwind_info::UnwindInfo;
use model::{translate, x64, Judged, Tally, X64};
use port::decode::Call;
use std::collections::BTreeMap;

const NO_LIMIT: u32 = 32;
/// Words and bytes that are lent beyond what is needed.
const OVER: usize = 9;

fn main() {
    let mut run = Run::default();
    let mut chains = None;
    let words: Vec<String> = std::env::args().skip(1).collect();
    for (kind, file) in files(&words) {
        if kind == X64 {
            let records = compare::<UnwindInfo>(file, &mut run);
            *chains.get_or_insert(0) += describe_chains(&records);
        } else {
            compare::<UnwindCodes>(file, &mut run);
        }
    }
    if let Some(chains) = chains {
        run.compared(chains == 0, || println!("no record is a chain"));
    }
    println!("The bodies, translated:");
    run.tally.print();
    run.close()
}

fn compare<D: Call>(file: &str, run: &mut Run) -> Vec<Record<D::Lead>> {
    let records = read(file);
    for record in &records {
        let found = decoding::<D>(record).and_then(|body| translation(D::KIND, body, &mut run.tally)).err();
        run.compared(found.is_some(), || println!("{file}: {record:x?}\n    {}", found.unwrap_or_default()));
    }
    describe::<D>(file, &records);
    records
}

/// The body, or what differs.
fn decoding<D: Call>(record: &Record<D::Lead>) -> Result<Vec<u32>, String> {
    let made = D::body(&record.bytes, record.lead, &mut Tally::default());
    let body = made.map_err(|number| format!("refused {number}"))?;
    let need = body.len();
    let input =
        Input { bytes: record.bytes.clone(), lead: record.lead, room_len: need + OVER, need: Some(need), count_len: 1 };
    none_of(port::decode::against_model::<D>(&input, &mut Tally::default()))?;
    Ok(body)
}

fn translation(kind: u32, body: Vec<u32>, tally: &mut Tally) -> Result<(), String> {
    let book = assemble(kind, &[body]);
    let due = translate(&book, NO_LIMIT, WORK, usize::MAX, &mut Tally::default());
    if due.number != 0 {
        return Err(format!("translation refused {}", due.number));
    }
    let need = due.text.len();
    let case = Case { book, limit: NO_LIMIT, work_len: WORK, text_len: need + OVER, need, counts_len: 2 };
    none_of(port::against_model(&case, tally))?;
    if kind == X64 {
        none_of(port::chains::against_unwinder(&case, &mut Tally::default()))?;
    }
    Ok(())
}

fn none_of(found: Vec<String>) -> Result<(), String> {
    if found.is_empty() {
        Ok(())
    } else {
        Err(found.join(", "))
    }
}

/// How many records a file has, how many of them differ in their bytes, and of both how many hold what.
fn describe<D: Decoder>(file: &str, records: &[Record<D::Lead>]) {
    let apart = distinct(records);
    let mut counts: BTreeMap<&str, [usize; 2]> = BTreeMap::new();
    for (i, list) in [records, &apart].into_iter().enumerate() {
        for name in list.iter().flat_map(holds::<D>) {
            counts.entry(name).or_default()[i] += 1;
        }
    }
    let bytes: usize = records.iter().map(|record| record.bytes.len()).sum();
    let name = file.rsplit('/').next().unwrap_or(file);
    println!(
        "{name}: {} records, {} distinct, {bytes} bytes; records, and distinct ones, with",
        records.len(),
        apart.len()
    );
    for (name, [all, distinct]) in counts {
        println!("{all:>9} {distinct:>6} {}", name.trim_start_matches("decode "));
    }
}

/// How many records have two or more parts, and of how many of these the line would be another one with the parts run first to last.
fn describe_chains(records: &[Record<[u32; 3]>]) -> usize {
    let [all, apart] = [records.to_vec(), distinct(records)].map(|list| {
        let bodies = list.iter().filter_map(written).filter(|body| body[3] > 1);
        let changed: Vec<bool> = bodies.map(|body| changed(&body)).collect();
        [changed.len(), changed.iter().filter(|changed| **changed).count()]
    });
    println!("{:>9} {:>6} chains that are written", all[0], apart[0]);
    println!("{:>9} {:>6} chains with another line than first to last", all[1], apart[1]);
    all[0]
}

/// The body of a record that has a line.
fn written(record: &Record<[u32; 3]>) -> Option<Vec<u32>> {
    let body = UnwindInfo::body(&record.bytes, record.lead, &mut Tally::default()).ok()?;
    let judged = x64::entry(&body, NO_LIMIT, &mut Tally::default());
    matches!(judged, Judged::Text(_)).then_some(body)
}
