//! x64 functions as MSVC lays out their prologues.

use super::Place;
use model::rng::Rng;

const RBX: u32 = 3;
const RBP: u32 = 5;
const RSI: u32 = 6;
const RDI: u32 = 7;

type Operation = [u32; 3];

fn push(register: u32) -> Operation {
    [1, register, 0]
}

fn allocate(size: u32) -> Operation {
    [2, 0, size]
}

fn save_rsp(register: u32, offset: u32) -> Operation {
    [3, register, offset]
}

fn save_fp(register: u32, offset: u32) -> Operation {
    [4, register, offset]
}

const SET: Operation = [5, 0, 0];

/// Frame register, frame offset, operations in the order of the prologue.
struct Info(u32, u32, Vec<Operation>);

fn stored(place: Place, infos: &[Info]) -> Vec<u32> {
    let mut body = vec![place.start, place.start + place.size, 0x20_0000 + place.start / 4, infos.len() as u32];
    for Info(register, offset, operations) in infos {
        body.extend([*register, *offset, operations.len() as u32]);
        body.extend(operations.iter().rev().flatten());
    }
    body
}

/// sub rsp, 28h
pub fn shortest(place: Place) -> Vec<u32> {
    stored(place, &[Info(0, 0, vec![allocate(0x28)])])
}

pub fn body(rng: &mut Rng, place: Place) -> Vec<u32> {
    let infos = match rng.below(200) {
        0..=79 => vec![Info(0, 0, vec![allocate(0x28 + 16 * rng.below(4))])],
        80..=129 => vec![Info(0, 0, vec![push(RBX), allocate(0x20 + 16 * rng.below(4))])],
        130..=159 => vec![home_space(rng)],
        160..=181 => vec![pushes(rng)],
        182..=193 => vec![framed(rng)],
        194..=198 => chained(rng),
        _ => vec![Info(0, 0, vec![[6, 0, rng.below(2)], push(RBP), allocate(0x158)])],
    };
    stored(place, &infos)
}

/// mov [rsp+8], rbx; mov [rsp+10h], rsi; push rdi; sub rsp, 20h
fn home_space(rng: &mut Rng) -> Info {
    let size = 0x20 + 16 * rng.below(8);
    let mut operations = vec![push(RDI), allocate(size)];
    let saved = [RBX, RBP, RSI];
    for (i, register) in saved.iter().take(rng.from_to(1, 3) as usize).enumerate() {
        operations.push(save_rsp(*register, size + 16 + 8 * i as u32));
    }
    Info(0, 0, operations)
}

/// mov [rsp+8], rbx; push rbp; push rsi; push rdi; push r14 ..; sub rsp, size
fn pushes(rng: &mut Rng) -> Info {
    let registers = [RBP, RSI, RDI, 14, 15, 12, 13];
    let count = rng.from_to(3, 5) as usize;
    let mut operations: Vec<Operation> = registers[..count].iter().map(|r| push(*r)).collect();
    let size = 0x20 + 16 * rng.below(20);
    operations.push(allocate(size));
    operations.push(save_rsp(RBX, size + 8 * count as u32 + 8));
    Info(0, 0, operations)
}

/// push rbp; push r14; lea rbp, [rsp-x]; sub rsp, size; with rbp as the frame
fn framed(rng: &mut Rng) -> Info {
    let size = 0x50 + 16 * rng.below(40);
    let mut operations = vec![push(RBP), push(14), push(15), allocate(size), SET];
    for (i, register) in [RBX, RSI, RDI].iter().take(rng.below(4) as usize).enumerate() {
        operations.push(save_fp(*register, size + 32 + 8 * i as u32));
    }
    Info(RBP, 16 * rng.from_to(1, 15), operations)
}

/// A part of a function that saves more registers than its first part.
fn chained(rng: &mut Rng) -> Vec<Info> {
    let size = 0x30 + 16 * rng.below(8);
    let later = vec![save_rsp(RSI, size + 24), save_rsp(14, size + 8)];
    vec![Info(0, 0, later), Info(0, 0, vec![push(RBX), allocate(size)])]
}
