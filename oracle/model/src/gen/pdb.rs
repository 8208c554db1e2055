//! PDB bodies.

use super::{near_longest, tune};
use crate::rng::Rng;
use crate::PDB;

const KEY: usize = 4;
const PROLOGS: usize = 12;
const CODES: usize = 13;
const LENGTH: usize = 14;
const SPACE: u32 = 32;

struct Entry {
    /// Type, start, code size, prolog size.
    key: [u32; KEY],
    params: u32,
    saved: u32,
    locals: u32,
    max_stack: [u32; 2],
    base_pointer: u32,
    has_program: u32,
    has_table: u32,
    prologs: Vec<(u32, u32)>,
    codes: Vec<(u32, u32)>,
    program: Vec<u32>,
}

impl Entry {
    fn stored(&self) -> Vec<u32> {
        let mut body = self.key.to_vec();
        body.extend([self.params, self.saved, self.locals]);
        body.extend(self.max_stack);
        body.extend([self.base_pointer, self.has_program, self.has_table]);
        body.extend([self.prologs.len(), self.codes.len(), self.program.len()].map(|n| n as u32));
        body.extend(self.prologs.iter().chain(&self.codes).flat_map(|&(start, end)| [start, end]));
        body.extend(&self.program);
        body
    }
}

pub fn body(rng: &mut Rng, before: &[Vec<u32>]) -> Vec<u32> {
    if rng.one_in(60) {
        return long(rng);
    }
    let mut entry = function(rng);
    if rng.one_in(3) {
        repeat(rng, before, &mut entry);
    }
    if rng.one_in(10) {
        entry.key[2] = rng.pick(&[0x8000_0000, 0xffff_ff6e, u32::MAX]);
    }
    match rng.below(11) {
        0..=2 => {}
        3 => {
            entry.prologs.clear();
            entry.codes.truncate(rng.index(2));
        }
        4..=6 => {
            entry.prologs = ranges(rng);
            entry.codes = ranges(rng);
        }
        7 => neighbours(rng, &mut entry),
        8 => at_limit(rng, &mut entry),
        _ => disturb(rng, &mut entry),
    }
    entry.stored()
}

/// A function whose prolog and code lie together, as most do.
fn function(rng: &mut Rng) -> Entry {
    let start = rng.below(1 << 24);
    let prolog_size = rng.below(64);
    let code_size = prolog_size + rng.below(4096);
    let [has_program, has_table] = rng.pick(&[[1, 1], [1, 1], [1, 0], [0, 1], [0, 0]]);
    let program = if has_program + has_table == 2 { program(rng) } else { Vec::new() };
    let shift = rng.pick(&[0, 0, 4096]);
    let middle = start + prolog_size + shift;
    Entry {
        key: [rng.below(5), start, code_size, prolog_size],
        params: rng.sized_word(),
        saved: rng.sized_word() & 0xffff,
        locals: rng.sized_word(),
        max_stack: [rng.below(2), rng.sized_word()],
        base_pointer: rng.below(2),
        has_program,
        has_table,
        prologs: vec![(start + shift, middle)],
        codes: vec![(middle, start + code_size + shift)],
        program,
    }
}

/// The key of an entry before this one: mostly of the last, or of the one before an entry that is skipped by its size.
fn repeat(rng: &mut Rng, before: &[Vec<u32>], entry: &mut Entry) {
    if before.is_empty() {
        return;
    }
    let last = before.len() - 1;
    let oversized = before[last].get(2).is_some_and(|&size| size > 0x7fff_ffff);
    let i = match rng.below(2) {
        0 if oversized => last.saturating_sub(1),
        0 => last,
        _ => rng.index(before.len()),
    };
    let Some(key) = before[i].get(..KEY) else {
        return;
    };
    entry.key.copy_from_slice(key);
    if rng.one_in(5) {
        entry.key[0] = (entry.key[0] + 1) % 5;
    } else if rng.one_in(5) {
        let at = rng.from_to(1, 3) as usize;
        entry.key[at] = entry.key[at].saturating_add(1) & 0xffff;
    }
}

fn program(rng: &mut Rng) -> Vec<u32> {
    let bytes: Vec<u32> = match rng.below(8) {
        0 => Vec::new(),
        1 => vec![SPACE; rng.index(6)],
        2 => (0..rng.below(40)).map(|_| rng.from_to(32, 126)).collect(),
        3 => (0..rng.below(12)).map(|_| rng.pick(&[32, 33, 126])).collect(),
        _ => "$T0 $ebp = $eip $T0 4 + ^ = $ebp $T0 ^ = $esp $T0 8 + =".bytes().map(u32::from).collect(),
    };
    let (left, right) = (rng.index(3), rng.index(3));
    let padded = rng.one_in(2);
    let spaces = |n: usize| vec![SPACE; if padded { n } else { 0 }];
    [spaces(left), bytes, spaces(right)].concat()
}

/// Ranges in any order, some empty, some touching.
fn ranges(rng: &mut Rng) -> Vec<(u32, u32)> {
    let count = if rng.one_in(8) { rng.from_to(12, 16) } else { rng.below(5) };
    let mut at = rng.below(1 << 16);
    let mut ranges: Vec<(u32, u32)> = Vec::new();
    for _ in 0..count {
        let end = at + rng.pick(&[0, 1, 16, 100]);
        ranges.push((at, end));
        at = end + rng.below(2) * rng.below(500);
        if ranges.last().is_some_and(|range| range.0 == at) {
            at += 1;
        }
    }
    for i in 0..ranges.len() {
        let other = rng.index(ranges.len());
        ranges.swap(i, other);
    }
    ranges
}

/// One prolog range and one code range that touch, or nearly.
fn neighbours(rng: &mut Rng, entry: &mut Entry) {
    let middle = rng.sized_word();
    let (before, after) = (rng.below(100), rng.below(100));
    entry.prologs = vec![(middle.saturating_sub(before), middle)];
    entry.codes = vec![(middle, middle.saturating_add(after))];
    match rng.below(6) {
        0 => entry.codes[0].0 = middle.saturating_add(1).min(entry.codes[0].1),
        1 => entry.prologs.push(rng.pick(&[(5, 9), (u32::MAX, u32::MAX)])),
        2 => entry.codes.push(rng.pick(&[(5, 9), (u32::MAX, u32::MAX)])),
        3 => entry.prologs.clear(),
        4 => entry.codes.clear(),
        _ => {}
    }
}

/// Sizes and sums at their limits, from both sides.
fn at_limit(rng: &mut Rng, entry: &mut Entry) {
    let prolog = rng.pick(&[0, 16, 0xffff, 0x10000]);
    let size = rng.pick(&[0, 16, 0x7fff_fffe, 0x7fff_ffff, 0x8000_0000, 0xffff_ff6e, u32::MAX]);
    let reached = rng.pick(&[size, prolog, 0]);
    let start = (u32::MAX - reached).wrapping_add(rng.pick(&[0, 0, 1, u32::MAX]));
    entry.key = [entry.key[0], if rng.one_in(3) { 4096 } else { start }, size, prolog];
    if rng.one_in(3) {
        entry.prologs = vec![(0, u32::MAX)];
        entry.codes = vec![(u32::MAX, u32::MAX), (0, rng.pick(&[0, u32::MAX]))];
    }
}

/// One thing outside its range, or just inside.
fn disturb(rng: &mut Rng, entry: &mut Entry) {
    match rng.below(13) {
        0 => entry.key[0] = rng.pick(&[4, 5, u32::MAX]),
        1 => entry.key[3] = rng.pick(&[0xffff, 0x10000]),
        2 => entry.saved = rng.pick(&[0xffff, 0x10000]),
        3 => entry.max_stack[0] = 2,
        4 => entry.base_pointer = 2,
        5 => entry.has_program = 2,
        6 => entry.has_table = 2,
        7 => entry.program = vec![65; rng.pick(&[1, 1023, 1024, 1025])],
        8 => entry.codes = (0..rng.from_to(15, 17)).map(|i| (50 - i, 60)).collect(),
        9 => entry.prologs = (0..rng.from_to(15, 17)).map(|i| (50 - i, 50 - i)).collect(),
        10 => entry.codes.push((9, rng.pick(&[8, 9]))),
        11 => entry.prologs = vec![(7, 8), (rng.pick(&[7, 8]), 9)],
        _ => entry.program.push(rng.pick(&[31, 32, 126, 127, 256])),
    }
}

/// Lines with one long program, together about as long as an entry's text may be.
fn long(rng: &mut Rng) -> Vec<u32> {
    let target = near_longest(rng);
    let mut entry = function(rng);
    let lines = rng.from_to(9, 30);
    // Lengths of eight digits, of which a byte at a time can be taken away.
    let range = |i: u32| (i, i + 0x1000_0000);
    entry.prologs = (0..lines / 2).map(range).collect();
    entry.codes = (lines / 2..lines).map(range).collect();
    (entry.has_program, entry.has_table, entry.program) = (1, 1, vec![]);
    tune(
        PDB,
        target,
        entry.stored(),
        |body, _| {
            body[LENGTH] = (body[LENGTH] + 1).min(1024);
            body.resize(15 + 2 * (body[PROLOGS] + body[CODES]) as usize + body[LENGTH] as usize, 65);
        },
        |body, i| {
            let count = body[CODES] as usize;
            let at = 15 + 2 * body[PROLOGS] as usize + 2 * (i % count);
            body[at + 1] = body[at] + ((body[at + 1] - body[at]) >> 4);
        },
    )
}
