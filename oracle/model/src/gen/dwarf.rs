//! DWARF bodies.

use super::{near_longest, tune};
use crate::book::assemble;
use crate::rng::Rng;
use crate::DWARF;

const SAME: u32 = 0;
const OFFSET: u32 = 1;
const VALUE_OFFSET: u32 = 2;
const REGISTER: u32 = 3;
const OTHER: u32 = 4;
const EXPRESSION: u32 = 1;

#[derive(Clone)]
struct Row {
    start: u64,
    end: u64,
    /// Kind, register, offset.
    cfa: (u32, u32, i64),
    /// Register, kind, value.
    rules: Vec<(u32, u32, i64)>,
}

struct Entry {
    family: u32,
    initial: u64,
    load: u64,
    return_register: u32,
    rows: Vec<Row>,
}

fn halves(n: u64) -> [u32; 2] {
    [n as u32, (n >> 32) as u32]
}

impl Entry {
    fn stored(&self) -> Vec<u32> {
        let mut body = vec![self.family];
        body.extend(halves(self.initial));
        body.extend(halves(self.load));
        body.extend([self.return_register, self.rows.len() as u32]);
        for row in &self.rows {
            body.extend(halves(row.start));
            body.extend(halves(row.end));
            body.extend([row.cfa.0, row.cfa.1]);
            body.extend(halves(row.cfa.2 as u64));
            body.push(row.rules.len() as u32);
            for rule in &row.rules {
                body.extend([rule.0, rule.1]);
                body.extend(halves(rule.2 as u64));
            }
        }
        body
    }
}

pub fn body(rng: &mut Rng) -> Vec<u32> {
    let mut entry = match rng.below(24) {
        0..=3 => amd64(rng),
        4..=7 => arm64(rng),
        8 if rng.one_in(6) => return long(rng),
        9 if rng.one_in(4) => many_rows(rng),
        10 => many_registers(rng),
        _ => random(rng),
    };
    if rng.one_in(3) {
        disturb(rng, &mut entry);
    }
    entry.stored()
}

/// Start of the first row, and the load address below it.
fn addresses(rng: &mut Rng) -> (u64, u64) {
    let load = match rng.below(4) {
        0 => 0,
        1 => 0x40_0000,
        2 => 0x1_4000_0000,
        _ => rng.next() >> rng.below(60),
    };
    let start = match rng.below(6) {
        0 => load,
        1 => rng.next() | load,
        _ => load.saturating_add(u64::from(rng.below(1 << 20))),
    };
    (start, load)
}

/// push rbp; mov rbp, rsp; ...; pop, as compilers for x86-64 have it.
fn amd64(rng: &mut Rng) -> Entry {
    let (start, load) = addresses(rng);
    let mut rows = Vec::new();
    let mut rules = vec![(16, OFFSET, -8)];
    let mut cfa = (0, 7, 8);
    let mut at = start;
    for step in 0..rng.from_to(1, 6) {
        let end = at.wrapping_add(u64::from(rng.from_to(1, 40)));
        rows.push(Row { start: at, end, cfa, rules: rules.clone() });
        at = end;
        match step % 3 {
            0 => {
                cfa.2 += 8;
                let register = rng.pick(&[6, 3, 12, 13]);
                if rules.iter().all(|rule| rule.0 != register) {
                    rules.push((register, OFFSET, -cfa.2));
                }
            }
            1 => cfa.1 = 6,
            _ => cfa = (0, 7, 8),
        }
    }
    Entry { family: 2, initial: start, load, return_register: 16, rows }
}

/// stp x29, x30; as compilers for ARM64 have it: no rule for x30 in the first row.
fn arm64(rng: &mut Rng) -> Entry {
    let (start, load) = addresses(rng);
    let size = 16 * i64::from(rng.from_to(1, 20));
    let saved = vec![(29, OFFSET, -size), (30, OFFSET, 8 - size)];
    let steps = [
        ((0, 31, 0), vec![]),
        ((0, 31, size), saved.clone()),
        ((0, 29, size), saved.clone()),
        ((0, 31, 0), vec![(29, SAME, 0), (30, SAME, 0)]),
    ];
    let mut rows = Vec::new();
    let mut at = start;
    for (cfa, rules) in steps {
        let end = at.wrapping_add(4);
        rows.push(Row { start: at, end, cfa, rules });
        at = end;
    }
    rows.truncate(rng.from_to(1, 4) as usize);
    Entry { family: rng.pick(&[4, 9]), initial: start, load, return_register: 30, rows }
}

fn register(rng: &mut Rng) -> u32 {
    match rng.below(16) {
        0 => rng.pick(&[65535, 256, 128, 112, 117, 72, 67, 66, 50]),
        1..=5 => rng.below(120),
        _ => rng.below(34),
    }
}

fn number(rng: &mut Rng) -> i64 {
    match rng.below(16) {
        0 => rng.pick(&[i64::MIN, i64::MAX, i64::MIN + 1, -1, 1 << 32, -(1 << 32), 0x7fff_ffff, -0x8000_0000]),
        1 => rng.next() as i64,
        2 => rng.next() as i64 >> rng.below(64),
        _ => 8 * (i64::from(rng.below(4)) - 2),
    }
}

/// Few registers and few values, so that rules repeat, change and come back.
fn random(rng: &mut Rng) -> Entry {
    let (start, load) = addresses(rng);
    let mut pool: Vec<u32> = (0..rng.from_to(1, 6)).map(|_| register(rng)).collect();
    pool.sort_unstable();
    pool.dedup();
    let return_register = if rng.one_in(2) { rng.pick(&pool) } else { register(rng) };
    let mut rows: Vec<Row> = Vec::new();
    let mut at = start;
    for _ in 0..rng.from_to(1, 7) {
        let end = at.wrapping_add(u64::from(rng.below(20)));
        let cfa = cfa(rng, &pool);
        let rules = rules(rng, &pool);
        rows.push(Row { start: at, end, cfa, rules });
        if !rng.one_in(4) {
            at = end;
        }
    }
    Entry { family: rng.below(11), initial: start, load, return_register, rows }
}

fn cfa(rng: &mut Rng, pool: &[u32]) -> (u32, u32, i64) {
    match rng.below(6) {
        0 => (EXPRESSION, rng.sized_word(), number(rng)),
        1 => (0, register(rng), number(rng)),
        _ => (0, pool[0], 8 * i64::from(rng.below(3))),
    }
}

/// Some registers of the pool, in any order.
fn rules(rng: &mut Rng, pool: &[u32]) -> Vec<(u32, u32, i64)> {
    let mut left = pool.to_vec();
    let mut rules = Vec::new();
    for _ in 0..rng.index(pool.len() + 1) {
        let register = left.swap_remove(rng.index(left.len()));
        let kind = rng.from_to(SAME, OTHER);
        let value = match kind {
            OFFSET | VALUE_OFFSET => number(rng),
            REGISTER => i64::from(if rng.one_in(3) { self::register(rng) } else { rng.pick(pool) }),
            _ => rng.next() as i64,
        };
        rules.push((register, kind, value));
    }
    rules
}

/// One thing at, or over, an edge.
fn disturb(rng: &mut Rng, entry: &mut Entry) {
    let row = rng.index(entry.rows.len());
    match rng.below(16) {
        0 => entry.initial = rng.pick(&[u64::MAX, u64::MAX, u64::MAX - 1, u64::MAX << 32, u64::MAX >> 32]),
        1 => entry.rows.clear(),
        2 => entry.load = entry.rows[0].start.wrapping_add(1),
        3 => entry.load = entry.rows[0].start,
        4 => entry.rows.last_mut().unwrap().end = entry.rows[0].start.wrapping_sub(u64::from(rng.below(2))),
        5 => entry.rows[row].start = entry.load.wrapping_sub(u64::from(rng.below(2))),
        6 => entry.rows[row].start = rng.next(),
        7 => entry.return_register = rng.pick(&[65534, 65535, 65536, 5000]),
        8 => entry.rows.iter_mut().for_each(|row| row.start = entry.load),
        9 => entry.family = rng.pick(&[0, 10, 11]),
        10 => entry.rows[row].cfa = (rng.pick(&[0, 0, 1, 2]), rng.pick(&[65535, 65536, 70_000]), 0),
        11 => entry.rows[row].rules.push((rng.pick(&[65535, 65536]), rng.pick(&[OTHER, 5]), -1)),
        12 => entry.rows[row].rules.push((77, REGISTER, rng.pick(&[65535, 65536, 1 << 32, -1]))),
        13 => {
            let again = entry.rows[row].rules.first().copied();
            entry.rows[row].rules.extend(again);
        }
        _ => drop_first(rng, entry),
    }
}

/// A first row of which nothing can be written.
fn drop_first(rng: &mut Rng, entry: &mut Entry) {
    let start = entry.rows[0].start;
    let mut rules = vec![(200, OFFSET, 8)];
    if rng.one_in(2) {
        rules.push((entry.return_register, OTHER, 0));
    }
    let row = Row { start, end: start, cfa: (EXPRESSION, 0, 0), rules };
    entry.rows.insert(0, row);
    if rng.one_in(2) {
        entry.rows[1].cfa = (EXPRESSION, 1, 1);
    }
}

/// As many rows as a body may have, or one more; most say nothing new.
fn many_rows(rng: &mut Rng) -> Entry {
    let mut entry = amd64(rng);
    let count = rng.pick(&[200, 1023, 1024, 1025]);
    let row = Row { rules: Vec::new(), ..entry.rows[0].clone() };
    entry.rows.resize(count, row);
    entry
}

/// As many registers as a row and a body may have, or one more.
fn many_registers(rng: &mut Rng) -> Entry {
    let mut entry = random(rng);
    let count = rng.from_to(62, 66);
    let first = rng.below(60);
    let all: Vec<(u32, u32, i64)> = (first..first + count).map(|r| (r, OFFSET, i64::from(r))).collect();
    let cut = if rng.one_in(2) { all.len() } else { rng.index(all.len()) };
    entry.rows.truncate(1);
    entry.rows[0].rules = all[..cut].to_vec();
    let more = Row { rules: all[cut..].to_vec(), ..entry.rows[0].clone() };
    entry.rows.push(more);
    entry
}

/// Rows of rules that change each time, together about as long as an entry's text may be.
fn long(rng: &mut Rng) -> Vec<u32> {
    const WORDS: usize = 9 + 4 * 16;
    let target = near_longest(rng);
    let family = rng.pick(&[2, 4, 5, 8]);
    let entry = Entry { family, initial: 0, load: 0, return_register: 900, rows: vec![] };
    tune(
        DWARF,
        target,
        entry.stored(),
        |body, added| {
            let (row, rule) = (added / 16, added % 16);
            if rule == 0 {
                body[6] += 1;
                body.extend([row as u32, 0, row as u32 + 1, 0, 0, 0, 8, 0, 0]);
            }
            let count = 7 + row * WORDS + 8;
            body[count] += 1;
            body.extend([rule as u32, OFFSET, 100 + row as u32, 0]);
        },
        |body, i| {
            let at = 7 + (i / 16) * WORDS + 9 + 4 * (i % 16);
            body[at + 2] -= 50;
        },
    )
}

/// Every register of every family: as a rule's register, as a value, as the CFA's and as the return register.
pub fn every_name() -> Vec<Vec<u32>> {
    let mut books = Vec::new();
    for family in 0..=10 {
        for first in [0, 64, 128, 65472] {
            let registers: Vec<u32> = (first..first + 64).collect();
            let entries = [
                name_entry(family, registers.iter().map(|&r| (r, SAME, 0)).collect()),
                name_entry(family, registers.iter().map(|&r| (r % 64, REGISTER, i64::from(r))).collect()),
            ];
            let mut bodies: Vec<Vec<u32>> = entries.iter().map(Entry::stored).collect();
            for &register in &registers {
                let mut entry = name_entry(family, vec![]);
                entry.return_register = register;
                entry.rows[0].cfa = (0, register, i64::from(register));
                bodies.push(entry.stored());
            }
            books.push(assemble(DWARF, &bodies));
        }
    }
    books
}

fn name_entry(family: u32, rules: Vec<(u32, u32, i64)>) -> Entry {
    let row = Row { start: 16, end: 32, cfa: (0, 0, 8), rules };
    Entry { family, initial: 16, load: 0, return_register: 900, rows: vec![row] }
}
