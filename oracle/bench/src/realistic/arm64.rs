//! ARM64 functions as MSVC lays out their prologues.

use super::Place;
use model::rng::Rng;

const X: u32 = 0;
const D: u32 = 1;

type Operation = [u32; 4];

const SAVE_NEXT: Operation = [7, 0, 0, 0];

/// mov x29, sp, or pacibsp
const OTHER: Operation = [8, 0, 0, 0];
const END: Operation = [9, 0, 0, 0];

fn allocate(size: u32) -> Operation {
    [1, 0, 0, size]
}

fn save(register: u32, offset: u32) -> Operation {
    [2, X, register, offset]
}

fn pair(letter: u32, register: u32, offset: u32) -> Operation {
    [4, letter, register, offset]
}

fn pair_below(register: u32, size: u32) -> Operation {
    [5, X, register, size]
}

fn save_with_lr(register: u32, offset: u32) -> Operation {
    [6, X, register, offset]
}

/// The operations in the order of the prologue are stored reversed, with the end behind them.
fn stored(place: Place, operations: &[Operation]) -> Vec<u32> {
    let mut body = vec![place.start, place.size, operations.len() as u32 + 1];
    body.extend(operations.iter().rev().chain([&END]).flatten());
    body
}

/// stp x29, x30, [sp, -10h]!
pub fn shortest(place: Place) -> Vec<u32> {
    stored(place, &[pair_below(29, 16)])
}

pub fn body(rng: &mut Rng, place: Place) -> Vec<u32> {
    let mut operations = if rng.one_in(5) { vec![OTHER] } else { vec![] };
    match rng.below(20) {
        0..=5 => operations.extend([pair_below(29, 16), OTHER]),
        6..=13 => callee_saved(rng, &mut operations),
        14..=16 => operations.extend([pair_below(19, 32), save(21, 16), pair_below(29, 16 * rng.from_to(1, 30)), OTHER]),
        17 => operations.extend([pair_below(19, 32), save_with_lr(21, 16), allocate(16 * rng.from_to(1, 60))]),
        18 => floating(rng, &mut operations),
        _ => operations.push(allocate(16 * rng.from_to(1, 100))),
    }
    stored(place, &operations)
}

/// stp x19, x20, [sp, -size]!; stp x21, x22, [sp, 10h] ..; stp x29, x30; perhaps sub sp
fn callee_saved(rng: &mut Rng, operations: &mut Vec<Operation>) {
    let pairs = rng.from_to(1, 5);
    let next = rng.one_in(2);
    operations.push(pair_below(19, 16 * pairs));
    for i in 1..pairs {
        operations.push(if next { SAVE_NEXT } else { pair(X, 19 + 2 * i, 16 * i) });
    }
    operations.extend([pair_below(29, 16), OTHER]);
    if rng.one_in(2) {
        operations.push(allocate(16 * rng.from_to(1, 60)));
    }
}

/// d8 to d15 beside x19 and x20
fn floating(rng: &mut Rng, operations: &mut Vec<Operation>) {
    operations.push(pair_below(19, 80));
    for i in 0..rng.from_to(1, 4) {
        operations.push(pair(D, 8 + 2 * i, 16 + 16 * i));
    }
    operations.extend([pair_below(29, 32), OTHER]);
}
