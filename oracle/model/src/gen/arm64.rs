//! ARM64 bodies. Operations are made in the order in which they run and stored reversed.

use super::{near_longest, tune};
use crate::rng::Rng;
use crate::ARM64;

const ALLOCATE: u32 = 1;
const SAVE: u32 = 2;
const SAVE_PRE: u32 = 3;
const PAIR: u32 = 4;
const PAIR_PRE: u32 = 5;
const REGISTER_AND_LR: u32 = 6;
const NEXT: u32 = 7;
const OTHER: u32 = 8;
const END: u32 = 9;
const UNDECODABLE: u32 = 10;

type Operation = [u32; 4];

/// Operations as they run, then those that are stored behind the end.
fn stored(address: u32, size: u32, run: &[Operation], behind: &[Operation]) -> Vec<u32> {
    let mut body = vec![address, size, (run.len() + behind.len()) as u32];
    body.extend(run.iter().rev().chain(behind).flatten());
    body
}

pub fn body(rng: &mut Rng) -> Vec<u32> {
    let (mut address, size) = (rng.sized_word(), rng.sized_word());
    let run = match rng.below(24) {
        0..=8 => function(rng),
        9..=13 => operations(rng, 8),
        14..=16 => at_limit(rng),
        17 | 18 => registers_at_limit(rng),
        19 => undecodable(rng),
        20 => {
            let run = operations(rng, 9);
            let last = 4 * run.len().saturating_sub(1) as u32;
            address = (u32::MAX - last).saturating_add(rng.below(3)).saturating_sub(rng.below(3));
            run
        }
        21 if rng.one_in(4) => return long(rng),
        21 => pairs_and_next(rng),
        22 if rng.one_in(4) => return crowded(rng, address),
        22 => pairs_and_next(rng),
        _ => Vec::new(),
    };
    let behind = behind(rng);
    stored(address, size, &run, &behind)
}

/// Nothing, or an end and whatever follows it.
fn behind(rng: &mut Rng) -> Vec<Operation> {
    if rng.one_in(3) {
        return Vec::new();
    }
    let mut behind = vec![[END, rng.word(), rng.word(), rng.word()]];
    if rng.one_in(3) {
        behind.extend(operations(rng, 4));
    }
    if rng.one_in(6) {
        behind.push([rng.pick(&[UNDECODABLE, END, ALLOCATE]), 7, 300, u32::MAX]);
    }
    if rng.one_in(30) {
        behind.push([rng.pick(&[0, 11, PAIR]), 0, 256, 0]);
    }
    behind
}

/// Pairs, singles and allocations as compilers write them.
fn function(rng: &mut Rng) -> Vec<Operation> {
    let mut run = Vec::new();
    let register = rng.pick(&[29, 19, 20, 27]);
    run.push([PAIR_PRE, 0, register, 16 * rng.from_to(1, 16)]);
    for i in 0..rng.below(4) {
        run.push([PAIR, 0, 19 + 2 * i, 16 * (i + 1)]);
    }
    if rng.one_in(3) {
        run.push([PAIR, 1, 8, 8 * rng.below(20)]);
        run.push([NEXT, 0, 0, 0]);
    }
    if rng.one_in(3) {
        run.push([SAVE, rng.below(3), 19 + rng.below(10), 8 * rng.below(30)]);
    }
    if rng.one_in(3) {
        run.push([REGISTER_AND_LR, rng.below(4), 19 + 2 * rng.below(5), 8 * rng.below(30)]);
    }
    run.push([OTHER, 0, 0, 0]);
    if rng.one_in(2) {
        run.push([ALLOCATE, 0, 0, 16 * rng.below(300)]);
    }
    run
}

fn letter(rng: &mut Rng) -> u32 {
    rng.pick(&[0, 0, 0, 1, 1, 2, 3, 255, 256, u32::MAX])
}

fn register(rng: &mut Rng) -> u32 {
    match rng.below(40) {
        0 => rng.pick(&[254, 255, 256]),
        1..=4 => rng.below(256),
        5..=9 => rng.pick(&[28, 29, 30, 31]),
        _ => 19 + rng.below(12),
    }
}

fn value(rng: &mut Rng) -> u32 {
    match rng.below(30) {
        0 => rng.word() >> rng.below(8),
        1 => rng.word() >> 4,
        _ => 8 * rng.below(64),
    }
}

/// An operation that can be decoded; words that it does not use are filled at random.
fn operation(rng: &mut Rng) -> Operation {
    let unused = rng.sized_word();
    match rng.from_to(ALLOCATE, OTHER) {
        ALLOCATE => [ALLOCATE, unused, rng.word(), value(rng)],
        NEXT => [NEXT, unused, rng.word(), rng.word()],
        OTHER => [OTHER, unused, rng.word(), rng.word()],
        REGISTER_AND_LR => [REGISTER_AND_LR, unused, register(rng), value(rng)],
        kind => [kind, letter(rng), register(rng), value(rng)],
    }
}

fn operations(rng: &mut Rng, most: u32) -> Vec<Operation> {
    let count = rng.below(most + 1);
    (0..count).map(|_| operation(rng)).collect()
}

/// Totals and places at the ends of signed 32 bits, from both sides.
fn at_limit(rng: &mut Rng) -> Vec<Operation> {
    const END: u32 = 0x7fff_ffff;
    let near = END - rng.pick(&[0, 0, 1, 7, 8, 9, 15, 16, 17, 31, 32, 33]);
    let first = rng.pick(&[SAVE, SAVE_PRE, PAIR, PAIR_PRE, REGISTER_AND_LR, ALLOCATE]);
    let letter = letter(rng);
    let mut run = Vec::new();
    match rng.below(4) {
        0 => {
            let before = rng.pick(&[0, 1, 8, 16, 0x4000_0000]);
            run.push([ALLOCATE, 0, 0, before]);
            run.push([first, letter, 29, (END - before).wrapping_add(rng.below(18))]);
        }
        1 => {
            run.push([ALLOCATE, 0, 0, near]);
            run.push([first, letter, 19, rng.pick(&[0, 1, 8, END, END + 1])]);
        }
        2 => run.push([first, letter, 20, rng.pick(&[END, END + 1, u32::MAX, near])]),
        _ => run.push([rng.pick(&[PAIR, PAIR_PRE]), letter, 20, near]),
    }
    for _ in 0..rng.below(3) {
        run.push([rng.pick(&[NEXT, OTHER, SAVE, ALLOCATE]), 0, 3, rng.below(2)]);
    }
    run
}

/// Pairs and save-next at register 255, and at x30.
fn registers_at_limit(rng: &mut Rng) -> Vec<Operation> {
    let register = rng.pick(&[24, 25, 26, 27, 28, 29, 30, 250, 251, 252, 253, 254, 255]);
    let kind = rng.pick(&[PAIR, PAIR_PRE, SAVE, SAVE_PRE, REGISTER_AND_LR]);
    let mut run = vec![[kind, letter(rng), register, 8 * rng.below(9)]];
    for _ in 0..rng.below(4) {
        run.push([NEXT, 0, 0, 0]);
    }
    run
}

/// Pairs, singles between them, and save-next behind each.
fn pairs_and_next(rng: &mut Rng) -> Vec<Operation> {
    let mut run = Vec::new();
    for _ in 0..rng.from_to(1, 8) {
        let kind = rng.pick(&[NEXT, NEXT, NEXT, PAIR, PAIR_PRE, SAVE, SAVE_PRE, REGISTER_AND_LR, ALLOCATE]);
        run.push([kind, letter(rng), rng.below(31), 8 * rng.below(40)]);
    }
    run
}

fn undecodable(rng: &mut Rng) -> Vec<Operation> {
    let mut run = operations(rng, 6);
    let at = rng.index(run.len() + 1);
    run.insert(at, [UNDECODABLE, rng.word(), rng.word(), rng.word()]);
    run
}

/// As many operations as a body may have, or one more; an end leaves only some of them.
fn crowded(rng: &mut Rng, address: u32) -> Vec<u32> {
    let count = rng.pick(&[1023, 1024, 1025]);
    let counting = rng.index(200);
    let mut operations = vec![[OTHER, 0, 0, 0]; count];
    if rng.one_in(4) {
        operations.fill([NEXT, 0, 0, 0]);
    } else {
        operations[counting][0] = END;
    }
    stored(address, 64, &[], &operations)
}

/// Lines that together are about as long as an entry's text may be.
fn long(rng: &mut Rng) -> Vec<u32> {
    let target = near_longest(rng);
    let letter = letter(rng);
    let empty = stored(rng.below(1 << 24), rng.word(), &[], &[]);
    tune(
        ARM64,
        target,
        empty,
        move |body, _| {
            body[2] += 1;
            body.extend([SAVE, letter, 10, 8]);
        },
        |body, i| body[3 + 4 * (i + 1) + 2] = 9,
    )
}
