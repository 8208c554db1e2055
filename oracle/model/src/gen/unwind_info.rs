//! Unwind info of x64 functions as bytes: as compilers write it, at the limits, damaged, and plain bytes.

use super::input::damage;
use crate::rng::Rng;

const PUSH: u8 = 0;
const ALLOC_LARGE: u8 = 1;
const ALLOC_SMALL: u8 = 2;
const SET_FPREG: u8 = 3;
const SAVE_NONVOL: u8 = 4;
const SAVE_NONVOL_FAR: u8 = 5;
const SAVE_XMM128: u8 = 8;
const SAVE_XMM128_FAR: u8 = 9;
const PUSH_MACHFRAME: u8 = 10;
const DEFINED: [u8; 9] = [
    PUSH,
    ALLOC_LARGE,
    ALLOC_SMALL,
    SET_FPREG,
    SAVE_NONVOL,
    SAVE_NONVOL_FAR,
    SAVE_XMM128,
    SAVE_XMM128_FAR,
    PUSH_MACHFRAME,
];
const UNDEFINED: [u8; 7] = [6, 7, 11, 12, 13, 14, 15];
const MOST_SLOTS: usize = 255;

type Slot = [u8; 2];

struct Part {
    /// Version and flags.
    first: u8,
    prolog: u8,
    frame: u8,
    slots: Vec<Slot>,
}

impl Part {
    fn bytes(&self) -> Vec<u8> {
        let header = [self.first, self.prolog, self.slots.len() as u8, self.frame];
        header.iter().chain(self.slots.iter().flatten()).copied().collect()
    }
}

pub fn bytes(rng: &mut Rng) -> Vec<u8> {
    match rng.below(60) {
        0..=23 => {
            let most = rng.pick(&[1, 1, 2, 3]);
            joined(&chain(rng, most))
        }
        24..=27 => joined(&chain(rng, 33)),
        28..=33 => joined(&broken(rng)),
        34..=36 => joined(&limits(rng)),
        37 | 38 => behind_many(rng),
        39 => Vec::new(),
        40..=54 => damaged(rng),
        _ => plain(rng),
    }
}

fn joined(parts: &[Part]) -> Vec<u8> {
    parts.iter().flat_map(Part::bytes).collect()
}

fn chain(rng: &mut Rng, most: u32) -> Vec<Part> {
    let count = match rng.below(3) {
        0 if most > 32 => rng.from_to(31, 34),
        _ => rng.from_to(1, most),
    };
    (0..count).map(|_| if most > 3 { part(rng, 3) } else { function(rng) }).collect()
}

/// Any flags, version 1.
fn first(rng: &mut Rng) -> u8 {
    1 | (rng.below(32) as u8) << 3
}

/// No frame register, one with an offset, or an offset alone.
fn frame(rng: &mut Rng) -> u8 {
    match rng.below(6) {
        0..=2 => 0,
        3 => (rng.below(16) as u8) << 4,
        _ => rng.word() as u8,
    }
}

/// A prolog as compilers write it, stored last one first: saves, the frame register, an allocation, pushes.
fn function(rng: &mut Rng) -> Part {
    if rng.one_in(3) {
        return part(rng, 9);
    }
    let framed = rng.one_in(3);
    let mut slots = Vec::new();
    for _ in 0..rng.below(3) {
        let code = rng.pick(&[SAVE_NONVOL, SAVE_NONVOL, SAVE_XMM128]);
        operation(rng, code, &mut slots);
    }
    if framed {
        slots.push(head(rng, SET_FPREG, 0));
    }
    let code = rng.pick(&[ALLOC_SMALL, ALLOC_SMALL, ALLOC_LARGE]);
    operation(rng, code, &mut slots);
    for register in [3, 5, 6, 7, 12, 13, 14, 15] {
        if rng.one_in(3) {
            slots.push(head(rng, PUSH, register));
        }
    }
    let frame = if framed { 5 | (rng.below(16) as u8) << 4 } else { 0 };
    Part { first: first(rng), prolog: rng.below(64) as u8, frame, slots }
}

/// Any operations that can be decoded, at most so many.
fn part(rng: &mut Rng, most: u32) -> Part {
    let mut slots = Vec::new();
    for _ in 0..rng.below(most + 1) {
        let code = rng.pick(&DEFINED);
        operation(rng, code, &mut slots);
    }
    Part { first: first(rng), prolog: rng.word() as u8, frame: frame(rng), slots }
}

/// The first slot of an operation; its code offset is not read.
fn head(rng: &mut Rng, code: u8, info: u8) -> Slot {
    [rng.word() as u8, code | info << 4]
}

fn operation(rng: &mut Rng, code: u8, slots: &mut Vec<Slot>) {
    let info = match code {
        ALLOC_LARGE | PUSH_MACHFRAME => rng.below(2) as u8,
        _ => rng.below(16) as u8,
    };
    slots.push(head(rng, code, info));
    let [low, low_high, high, highest] = rng.sized_word().to_le_bytes();
    match (code, info) {
        (ALLOC_LARGE, 1) | (SAVE_NONVOL_FAR | SAVE_XMM128_FAR, _) => slots.extend([[low, low_high], [high, highest]]),
        (ALLOC_LARGE | SAVE_NONVOL | SAVE_XMM128, _) => slots.push([low, low_high]),
        _ => {}
    }
}

/// A part with something that cannot be decoded, perhaps with slots behind it, perhaps with parts behind that.
fn broken(rng: &mut Rng) -> Vec<Part> {
    let most = rng.pick(&[1, 3, 3, 6]);
    let mut parts = chain(rng, most);
    let i = rng.index(parts.len());
    let mut slots = Vec::new();
    for _ in 0..rng.below(4) {
        let code = rng.pick(&DEFINED);
        operation(rng, code, &mut slots);
    }
    match rng.below(4) {
        0 => {
            let (code, info) = (rng.pick(&UNDEFINED), rng.below(16) as u8);
            slots.push(head(rng, code, info));
        }
        1 => {
            let (code, info) = (rng.pick(&[ALLOC_LARGE, PUSH_MACHFRAME]), rng.from_to(2, 15) as u8);
            slots.push(head(rng, code, info));
        }
        _ => {
            cut_operation(rng, &mut slots);
            parts[i].slots = slots;
            return parts;
        }
    }
    for _ in 0..rng.below(3) {
        let code = rng.below(16) as u8;
        operation(rng, code, &mut slots);
    }
    parts[i].slots = slots;
    parts
}

/// An operation at the end of which one or two slots are missing.
fn cut_operation(rng: &mut Rng, slots: &mut Vec<Slot>) {
    let code = rng.pick(&[ALLOC_LARGE, SAVE_NONVOL, SAVE_NONVOL_FAR, SAVE_XMM128, SAVE_XMM128_FAR]);
    let whole = slots.len();
    operation(rng, code, slots);
    let left = rng.from_to(1, (slots.len() - whole - 1) as u32) as usize;
    slots.truncate(whole + left);
}

/// As many slots as a part may have, as many parts as a body may have, and one more or less.
fn limits(rng: &mut Rng) -> Vec<Part> {
    let count = match rng.below(12) {
        0 => rng.pick(&[32, 32, 33]),
        1 => rng.from_to(21, 31),
        _ => rng.from_to(1, 2),
    };
    (0..count).map(|_| crowded(rng, count > 2)).collect()
}

/// A part of 255 slots or a few less; `single` where each is to be an operation.
fn crowded(rng: &mut Rng, single: bool) -> Part {
    let single = single || rng.one_in(2);
    let most = MOST_SLOTS - if single { 0 } else { rng.index(2) };
    let mut slots = Vec::new();
    while slots.len() < most {
        let code = rng.pick(if single { &[PUSH, ALLOC_SMALL, SET_FPREG] } else { &DEFINED });
        operation(rng, code, &mut slots);
    }
    slots.truncate(MOST_SLOTS);
    Part { first: first(rng), prolog: rng.word() as u8, frame: frame(rng), slots }
}

/// 32 to 34 parts that are good, and one behind them that is not.
fn behind_many(rng: &mut Rng) -> Vec<u8> {
    let count = rng.pick(&[32, 33, 33, 33, 34]);
    let mut bytes: Vec<u8> = (0..count).flat_map(|_| part(rng, 2).bytes()).collect();
    let mut last = part(rng, 4).bytes();
    if rng.one_in(2) {
        last[0] = wrong_version(rng, last[0]);
    } else {
        last.truncate(rng.from_to(1, last.len() as u32 - 1) as usize);
    }
    bytes.extend(last);
    bytes
}

fn wrong_version(rng: &mut Rng, first: u8) -> u8 {
    first & !7 | rng.pick(&[0, 2, 3, 4, 5, 6, 7])
}

/// One thing changed of what was good.
fn damaged(rng: &mut Rng) -> Vec<u8> {
    let most = rng.pick(&[1, 2, 3, 3, 8]);
    let mut parts = chain(rng, most);
    let i = rng.index(parts.len());
    let before: usize = parts[..i].iter().map(|part| part.bytes().len()).sum();
    if rng.one_in(4) {
        parts[i].first = wrong_version(rng, parts[i].first);
    }
    let mut bytes = joined(&parts);
    match rng.below(4) {
        0 => bytes.truncate(before + rng.index(4)),
        1 => bytes[before + 2] = bytes[before + 2].wrapping_add(rng.pick(&[1, 2, 254, 255])),
        _ => damage(rng, &mut bytes),
    }
    bytes
}

/// Plain bytes; of some the first has version 1.
fn plain(rng: &mut Rng) -> Vec<u8> {
    let mut bytes: Vec<u8> = (0..rng.below(80)).map(|_| rng.word() as u8).collect();
    if rng.one_in(2) && bytes.len() > 4 {
        bytes[0] = first(rng);
        bytes[2] = rng.below(bytes.len() as u32 / 2) as u8;
    }
    bytes
}
