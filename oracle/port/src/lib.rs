//! The port's call, with a fence of known bytes on both sides of every buffer.

pub mod chains;
pub mod decode;

use model::book::WORK;
use model::gen::Case;
use model::rng::Rng;
use model::{outcome, Outcome, Tally};

extern "C" {
    fn stacklines_translate(
        book: *const u32,
        book_len: usize,
        limit: u32,
        work: *mut u8,
        work_len: usize,
        text: *mut u8,
        text_len: usize,
        counts: *mut u64,
        counts_len: usize,
    ) -> u32;
}

/// The call, without fences.
#[inline(never)]
pub fn translate(book: &[u32], limit: u32, work: &mut [u8], text: &mut [u8], counts: &mut [u64]) -> u32 {
    // SAFETY: every pointer leads to as many elements as its length says, and the buffers are lent apart.
    unsafe {
        stacklines_translate(
            book.as_ptr(),
            book.len(),
            limit,
            work.as_mut_ptr(),
            work.len(),
            text.as_mut_ptr(),
            text.len(),
            counts.as_mut_ptr(),
            counts.len(),
        )
    }
}

const FENCE: usize = 64;

/// A buffer between two fences.
struct Fenced<T> {
    all: Vec<T>,
    fence: T,
}

impl<T: Copy + PartialEq> Fenced<T> {
    fn new(content: &[T], fence: T) -> Self {
        let mut all = vec![fence; FENCE];
        all.extend(content);
        all.extend([fence; FENCE]);
        Fenced { all, fence }
    }

    fn inside(&self) -> &[T] {
        &self.all[FENCE..self.all.len() - FENCE]
    }

    fn len(&self) -> usize {
        self.inside().len()
    }

    fn inside_mut(&mut self) -> &mut [T] {
        let end = self.all.len() - FENCE;
        &mut self.all[FENCE..end]
    }

    fn pointer(&mut self) -> *mut T {
        self.all[FENCE..].as_mut_ptr()
    }

    fn whole(&self) -> bool {
        let (before, after) = (&self.all[..FENCE], &self.all[self.all.len() - FENCE..]);
        before.iter().chain(after).all(|b| *b == self.fence)
    }
}

/// What one call of the port gave.
pub struct Called {
    pub outcome: Outcome,
    pub counts: Vec<u64>,
    /// What the call must not do, and did.
    pub faults: Vec<&'static str>,
}

/// Bytes that stand in a buffer before the call.
pub fn filling(seed: u64, len: usize) -> Vec<u8> {
    let mut rng = Rng::new(seed);
    let mut bytes: Vec<u8> = Vec::with_capacity(len + 8);
    while bytes.len() < len {
        bytes.extend(rng.next().to_le_bytes());
    }
    bytes.truncate(len);
    bytes
}

/// Words that stand in a buffer before the call.
pub fn words_before(seed: u64, len: usize) -> Vec<u32> {
    let mut rng = Rng::new(seed);
    (0..len).map(|_| rng.word()).collect()
}

/// What stands in the counts before the call.
pub fn counts_before(len: usize) -> Vec<u64> {
    (0..len as u64).map(|i| 0xdead_beef_0000_0000 + i).collect()
}

pub fn call(case: &Case, work: &[u8], text: &[u8]) -> Called {
    let mut book = Fenced::new(&case.book, 0xa5a5_a5a5);
    let (mut work, mut text) = (Fenced::new(work, 0xa5), Fenced::new(text, 0x5a));
    let mut counts = Fenced::new(&counts_before(case.counts_len), u64::MAX / 3);
    // SAFETY: every pointer leads to as many elements as its length says.
    let number = unsafe {
        stacklines_translate(
            book.pointer(),
            book.len(),
            case.limit,
            work.pointer(),
            work.len(),
            text.pointer(),
            text.len(),
            counts.pointer(),
            counts.len(),
        )
    };
    let mut faults = Vec::new();
    let checks = [
        (book.inside() == case.book, "book changed"),
        (book.whole(), "fence of the book"),
        (work.whole(), "fence of the work area"),
        (text.whole(), "fence of the text"),
        (counts.whole(), "fence of the counts"),
    ];
    faults.extend(checks.iter().filter(|(holds, _)| !holds).map(|(_, what)| *what));
    let counted = |i: usize| counts.inside().get(i).map_or(0, |&n| n as usize);
    let outcome = Outcome {
        number,
        entries: counted(0),
        length: counted(1),
        work: work.inside().to_vec(),
        text: text.inside().to_vec(),
    };
    Called { outcome, counts: counts.inside().to_vec(), faults }
}

/// What differs between a call of the port and the outcome that is due.
pub fn differences(case: &Case, due: &Outcome, called: &Called) -> Vec<String> {
    let mut found: Vec<String> = called.faults.iter().map(|f| f.to_string()).collect();
    if called.outcome.number != due.number {
        found.push(format!("number {} for {}", called.outcome.number, due.number));
    }
    let mut counts = counts_before(case.counts_len);
    if case.counts_len >= 2 {
        counts[0] = due.entries as u64;
        counts[1] = due.length as u64;
    }
    if called.counts != counts {
        found.push(format!("counts {:?} for {counts:?}", called.counts));
    }
    if let Some(at) = first_difference(&called.outcome.work, &due.work) {
        found.push(format!("work area from byte {at}"));
    }
    if let Some(at) = first_difference(&called.outcome.text, &due.text) {
        found.push(format!("text from byte {at}"));
    }
    found
}

fn first_difference(a: &[u8], b: &[u8]) -> Option<usize> {
    a.iter().zip(b).position(|(x, y)| x != y)
}

/// What differs between a call of the port and the model's outcome.
pub fn against_model(case: &Case, tally: &mut Tally) -> Vec<String> {
    let (work, text) = (filling(1, case.work_len), filling(2, case.text_len));
    let due = outcome(&case.book, case.limit, &work, &text, tally);
    differences(case, &due, &call(case, &work, &text))
}

/// Notes the limit and the lengths of the buffers.
pub fn note_call(case: &Case, tally: &mut Tally) {
    tally.count(match case.limit {
        0 => "limit 0",
        1..=31 => "limit 1 to 31",
        32 => "limit 32",
        33 => "limit 33",
        _ => "limit above 33",
    });
    tally.count(match case.work_len {
        0 => "work area 0",
        WORK => "work area 8192",
        n if n + 1 == WORK => "work area 8191",
        n if n < WORK => "work area 1 to 8190",
        n if n == WORK + 1 => "work area 8193",
        _ => "work area longer",
    });
    tally.count(match (case.text_len, case.need) {
        (n, need) if n == need => "text buffer exact",
        (0, _) => "text buffer 0",
        (n, need) if n + 1 == need => "text buffer one short",
        (n, need) if n < need => "text buffer shorter",
        (n, need) if n == need + 1 => "text buffer one over",
        _ => "text buffer longer",
    });
    tally.count(match case.counts_len {
        0 => "counts 0",
        1 => "counts 1",
        2 => "counts 2",
        _ => "counts more",
    });
}
