//! The call as a whole: the book's contents, the entries in turn, the refusals and both buffers.

use crate::{arm64, dwarf, pdb, x64, Judged, Tally, ALL_KINDS, ARM64, DWARF, X64};

/// Bytes of work area that a call needs, and the longest text of an entry.
pub const WORK: usize = 8192;
const MOST_LIMIT: u32 = 32;
const MOST_ENTRIES: u32 = 1024;
pub const MOST_WORDS: usize = 16384;

/// Everything that a call leaves behind.
#[derive(Clone, Debug, PartialEq, Eq)]
pub struct Outcome {
    pub number: u32,
    pub entries: usize,
    pub length: usize,
    pub work: Vec<u8>,
    pub text: Vec<u8>,
}

/// What a call returns, with the text itself.
#[derive(Clone, Debug, PartialEq, Eq)]
pub struct Translated {
    pub number: u32,
    pub entries: usize,
    pub text: Vec<u8>,
}

/// The outcome of a call with these buffers.
pub fn outcome(book: &[u32], limit: u32, work: &[u8], text: &[u8], tally: &mut Tally) -> Outcome {
    let done = translate(book, limit, work.len(), text.len(), tally);
    let (mut work, mut text) = (work.to_vec(), text.to_vec());
    if done.number == 0 || done.number > 3 {
        work[..WORK].fill(0);
        text[..done.text.len()].copy_from_slice(&done.text);
    }
    Outcome {
        number: done.number,
        entries: done.entries,
        length: done.text.len(),
        work,
        text,
    }
}

/// The same without the buffers: only their lengths count.
pub fn translate(book: &[u32], limit: u32, work_len: usize, text_len: usize, tally: &mut Tally) -> Translated {
    let refused = |number| Translated { number, entries: 0, text: Vec::new() };
    let done = if work_len < WORK {
        refused(1)
    } else if limit > MOST_LIMIT {
        refused(2)
    } else {
        match bodies(book) {
            Some(bodies) => run(book[0], &bodies, limit, text_len, tally),
            None => refused(3),
        }
    };
    tally.count(CALLED[done.number as usize]);
    note_size(book, tally);
    done
}

const CALLED: [&str; 10] = [
    "call 0", "call 1", "call 2", "call 3", "call 4", "call 5", "call 6", "call 7", "call 8", "call 9",
];

fn note_size(book: &[u32], tally: &mut Tally) {
    match book.get(1) {
        Some(0) => tally.count("book of 0 entries"),
        Some(1024) => tally.count("book of 1024 entries"),
        Some(1025) => tally.count("book of 1025 entries"),
        _ => {}
    }
    match book.len() {
        16384 => tally.count("book of 16384 words"),
        16385 => tally.count("book of 16385 words"),
        _ => {}
    }
}

/// The bodies, where the book keeps the contents rules.
pub fn bodies(book: &[u32]) -> Option<Vec<&[u32]>> {
    let (&kind, &n) = (book.first()?, book.get(1)?);
    if !ALL_KINDS.contains(&kind) || n > MOST_ENTRIES || book.len() > MOST_WORDS {
        return None;
    }
    let pairs = book.get(2..2 + 2 * n as usize)?;
    let mut at = 2 + 2 * n as usize;
    let mut bodies = Vec::new();
    for pair in pairs.chunks(2) {
        if pair[0] as usize != at {
            return None;
        }
        let end = at + pair[1] as usize;
        bodies.push(book.get(at..end)?);
        at = end;
    }
    (at == book.len()).then_some(bodies)
}

/// A book made of bodies.
pub fn assemble(kind: u32, bodies: &[Vec<u32>]) -> Vec<u32> {
    let mut book = vec![kind, bodies.len() as u32];
    let mut at = 2 + 2 * bodies.len();
    for body in bodies {
        book.extend([at as u32, body.len() as u32]);
        at += body.len();
    }
    book.extend(bodies.iter().flatten());
    book
}

fn run(kind: u32, bodies: &[&[u32]], limit: u32, text_len: usize, tally: &mut Tally) -> Translated {
    let mut done = Translated { number: 0, entries: 0, text: Vec::new() };
    let mut last = pdb::Last::default();
    for body in bodies {
        let judged = match kind {
            X64 => x64::entry(body, limit, tally),
            ARM64 => arm64::entry(body, tally),
            DWARF => dwarf::entry(body, tally),
            _ => pdb::entry(body, &mut last, tally),
        };
        match judged {
            Judged::Refused(number) => done.number = number,
            Judged::Skipped(why) => tally.note(why),
            Judged::Text(text) if text.len() > WORK => {
                if text.len() == WORK + 1 {
                    tally.count("entry of 8193 bytes");
                }
                done.number = 8;
            }
            Judged::Text(text) if text.len() > text_len - done.text.len() => done.number = 9,
            Judged::Text(text) => {
                note_written(kind, text.len(), tally);
                done.text.extend(text.bytes());
            }
        }
        tally.entry_ends(done.number == 0);
        if done.number != 0 {
            note_refused(kind, done.number, tally);
            break;
        }
        done.entries += 1;
    }
    done
}

fn note_written(kind: u32, length: usize, tally: &mut Tally) {
    tally.note(match kind {
        X64 => "x64 entry written",
        ARM64 => "arm64 entry written",
        DWARF => "dwarf entry written",
        _ => "pdb entry written",
    });
    if length == WORK {
        tally.note("entry of 8192 bytes");
    }
}

fn note_refused(kind: u32, number: u32, tally: &mut Tally) {
    tally.count(match (kind, number) {
        (X64, 4) => "x64 refused 4",
        (X64, 5) => "x64 refused 5",
        (X64, 6) => "x64 refused 6",
        (X64, 7) => "x64 refused 7",
        (X64, 8) => "x64 refused 8",
        (X64, _) => "x64 refused 9",
        (ARM64, 4) => "arm64 refused 4",
        (ARM64, 6) => "arm64 refused 6",
        (ARM64, 8) => "arm64 refused 8",
        (ARM64, _) => "arm64 refused 9",
        (DWARF, 4) => "dwarf refused 4",
        (DWARF, 6) => "dwarf refused 6",
        (DWARF, 8) => "dwarf refused 8",
        (DWARF, _) => "dwarf refused 9",
        (_, 4) => "pdb refused 4",
        (_, 6) => "pdb refused 6",
        (_, 8) => "pdb refused 8",
        (_, _) => "pdb refused 9",
    });
}
