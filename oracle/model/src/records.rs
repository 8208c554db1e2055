//! Files of unwind bytes: for each function the words that its call gives, that is begin, end and info address for x64, address and size for ARM64,
//! then the number of bytes, all as little-endian words, then the bytes.

use std::collections::{BTreeMap, BTreeSet};
use std::fs;

use crate::decoder::{Decoder, Lead};
use crate::files::words;
use crate::{Tally, ARM64, X64};

#[derive(Clone, Debug)]
pub struct Record<L> {
    /// The words of the call.
    pub lead: L,
    pub bytes: Vec<u8>,
}

/// The records of a file; the program ends where it is no such file.
pub fn read<L: Lead>(path: &str) -> Vec<Record<L>> {
    let bytes = fs::read(path).unwrap_or_else(|error| panic!("{path}: {error}"));
    let mut records = Vec::new();
    let mut rest = &bytes[..];
    while !rest.is_empty() {
        let (record, behind) = record(rest).unwrap_or_else(|| panic!("{path}: cut short"));
        records.push(record);
        rest = behind;
    }
    assert!(!records.is_empty(), "{path}: no file of unwind bytes");
    records
}

/// The first record, and what stands behind it.
fn record<L: Lead>(bytes: &[u8]) -> Option<(Record<L>, &[u8])> {
    let mut lead = L::default();
    let count = lead.as_ref().len();
    let (head, rest) = bytes.split_at_checked(4 * (count + 1))?;
    let head = words(head)?;
    lead.as_mut().copy_from_slice(&head[..count]);
    let (bytes, behind) = rest.split_at_checked(head[count] as usize)?;
    Some((Record { lead, bytes: bytes.to_vec() }, behind))
}

/// The bytes of such a file with these records.
pub fn written<L: Lead>(records: &[Record<L>]) -> Vec<u8> {
    let one = |record: &Record<L>| {
        let head = [record.lead.as_ref(), &[record.bytes.len() as u32]].concat();
        head.iter().flat_map(|word| word.to_le_bytes()).chain(record.bytes.clone()).collect::<Vec<u8>>()
    };
    records.iter().flat_map(one).collect()
}

/// The first record with each unwind bytes, in the order of the file.
pub fn distinct<L: Lead>(records: &[Record<L>]) -> Vec<Record<L>> {
    let mut seen = BTreeSet::new();
    records.iter().filter(|record| seen.insert(&record.bytes)).cloned().collect()
}

/// What the model counts of a record: its operations, its parts, and so on.
pub fn holds<D: Decoder>(record: &Record<D::Lead>) -> Vec<&'static str> {
    let mut tally = Tally::default();
    let made = D::body(&record.bytes, record.lead, &mut tally);
    tally.entry_ends(made.is_ok());
    tally.names().collect()
}

/// Each `step`th distinct record, and of each thing that the model counts the first `least` that hold it, in the order of the file.
pub fn sample<D: Decoder>(records: &[Record<D::Lead>], step: usize, least: usize) -> Vec<Record<D::Lead>> {
    let mut met = BTreeMap::new();
    let mut taken = Vec::new();
    for (i, record) in distinct(records).into_iter().enumerate() {
        let mut take = i % step == 0;
        for name in holds::<D>(&record) {
            let count = met.entry(name).or_insert(0);
            *count += 1;
            take |= *count <= least;
        }
        if take {
            taken.push(record);
        }
    }
    taken
}

/// The kind that a word of a command names; none where it is another word.
pub fn kind(word: &str) -> Option<u32> {
    match word {
        "x64" => Some(X64),
        "arm64" => Some(ARM64),
        _ => None,
    }
}

/// The files of a command's words, `x64 FILE.. arm64 FILE..`, each with the kind of its records.
pub fn files(words: &[String]) -> Vec<(u32, &str)> {
    let mut files = Vec::new();
    let mut now = None;
    for word in words {
        if let Some(kind) = kind(word) {
            now = Some(kind);
        } else {
            files.push((now.expect("x64 or arm64 before FILE"), word.as_str()));
        }
    }
    assert!(!files.is_empty(), "x64 FILE.. arm64 FILE..");
    files
}
