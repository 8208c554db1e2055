//! Makes a book that shows a fault smaller, without knowing its kind: entries are dropped, stretches of words are
//! cut out together with a count that falls by as many, words are made smaller.

use crate::book::{assemble, bodies};
use std::ops::Range;

const MOST_TRIES: usize = 40_000;
const MOST_TRIES_OF_BYTES: usize = 2_000;
/// How many stretches are cut out at once.
const BLOCKS: [usize; 4] = [64, 16, 4, 1];
/// How many words before a stretch are tried as its count.
const MOST_COUNTS: usize = 60;
/// Lengths of an operation, a range, a rule, an info without operations, a row without rules, a byte.
const STRETCHES: [usize; 6] = [9, 6, 4, 3, 2, 1];

struct Shrinker<'a> {
    shows: &'a dyn Fn(&[u32]) -> bool,
    tries: usize,
}

/// The smallest book found that still `shows` the fault.
pub fn shrink(book: &[u32], shows: &dyn Fn(&[u32]) -> bool) -> Vec<u32> {
    let Some(parts) = bodies(book) else {
        return book.to_vec();
    };
    let mut parts: Vec<Vec<u32>> = parts.into_iter().map(<[u32]>::to_vec).collect();
    let mut shrinker = Shrinker { shows, tries: 0 };
    let kind = book[0];
    loop {
        let before = parts.clone();
        shrinker.drop_entries(kind, &mut parts);
        for i in 0..parts.len() {
            shrinker.cut(kind, &mut parts, i);
            shrinker.lower(kind, &mut parts, i);
        }
        if parts == before || shrinker.tries > MOST_TRIES {
            return assemble(kind, &parts);
        }
    }
}

/// The same for bytes: stretches are cut out, then single bytes are made smaller.
pub fn shrink_bytes(bytes: &[u8], shows: &dyn Fn(&[u8]) -> bool) -> Vec<u8> {
    let mut small = bytes.to_vec();
    let mut tries = 0;
    let mut keeps = |bytes: &[u8]| {
        tries += 1;
        tries <= MOST_TRIES_OF_BYTES && shows(bytes)
    };
    for length in [4096, 1024, 256, 64, 16, 8, 6, 4, 2, 1] {
        let mut at = small.len();
        while at >= length {
            let cut = [&small[..at - length], &small[at..]].concat();
            if keeps(&cut) {
                small = cut;
            }
            at = small.len().min(at - length.div_ceil(4));
        }
    }
    for at in 0..small.len() {
        let byte = small[at];
        for smaller in [0, 1, byte & 15, byte / 2].into_iter().filter(|&b| b < byte) {
            small[at] = smaller;
            if keeps(&small) {
                break;
            }
            small[at] = byte;
        }
    }
    small
}

impl Shrinker<'_> {
    fn keeps(&mut self, kind: u32, parts: &[Vec<u32>]) -> bool {
        self.tries += 1;
        self.tries <= MOST_TRIES && (self.shows)(&assemble(kind, parts))
    }

    fn drop_entries(&mut self, kind: u32, parts: &mut Vec<Vec<u32>>) {
        let mut i = parts.len();
        while i > 0 {
            i -= 1;
            let dropped = parts.remove(i);
            if !self.keeps(kind, parts) {
                parts.insert(i, dropped);
            }
        }
    }

    fn cut(&mut self, kind: u32, parts: &mut [Vec<u32>], i: usize) {
        for block in BLOCKS {
            for stretch in STRETCHES {
                let words = block * stretch;
                let step = if block == 1 { 1 } else { words / 2 };
                let mut at = parts[i].len().saturating_sub(words);
                while at > 0 {
                    self.cut_at(kind, &mut parts[..], i, at..at + words, block as u32);
                    at = at.saturating_sub(step);
                }
            }
        }
    }

    fn cut_at(&mut self, kind: u32, parts: &mut [Vec<u32>], i: usize, words: Range<usize>, by: u32) {
        let whole = parts[i].clone();
        if words.end > whole.len() {
            return;
        }
        let counts = (0..words.start).filter(|&c| whole[c] >= by && whole[c] <= 1024);
        for count in counts.rev().take(MOST_COUNTS) {
            parts[i] = whole.clone();
            parts[i].drain(words.clone());
            parts[i][count] -= by;
            if self.keeps(kind, parts) {
                return;
            }
        }
        parts[i] = whole;
    }

    fn lower(&mut self, kind: u32, parts: &mut [Vec<u32>], i: usize) {
        for at in 0..parts[i].len() {
            let word = parts[i][at];
            for smaller in [0, 1, word / 2, word.wrapping_sub(1)] {
                if smaller >= word {
                    continue;
                }
                parts[i][at] = smaller;
                if self.keeps(kind, parts) {
                    break;
                }
                parts[i][at] = word;
            }
        }
    }
}
