//! x64 bodies. Operations are made in the order in which they run and stored reversed; infos are made as stored, and run last to first.

use super::{near_longest, tune};
use crate::rng::Rng;
use crate::X64;

const PUSH: u32 = 1;
const ALLOCATE: u32 = 2;
const SAVE_RSP: u32 = 3;
const SAVE_FP: u32 = 4;
const SET: u32 = 5;
const MACHINE_FRAME: u32 = 6;
const OTHER: u32 = 7;
const UNDECODABLE: u32 = 8;

const MOST_INFOS: usize = 32;

type Operation = [u32; 3];

/// Frame register, frame offset, operations as they run.
struct Info(u32, u32, Vec<Operation>);

fn stored(lead: [u32; 3], infos: &[Info]) -> Vec<u32> {
    let mut body = lead.to_vec();
    body.push(infos.len() as u32);
    for Info(register, offset, operations) in infos {
        body.extend([*register, *offset, operations.len() as u32]);
        body.extend(operations.iter().rev().flatten());
    }
    body
}

pub fn body(rng: &mut Rng) -> Vec<u32> {
    let lead = lead(rng);
    match rng.below(24) {
        0..=7 => stored(lead, &[function(rng)]),
        8..=12 => {
            let infos = chain(rng, 4);
            stored(lead, &infos)
        }
        13 | 14 => {
            let infos = chain(rng, 33);
            stored(lead, &infos)
        }
        15 => stored(lead, &at_edge(rng)),
        16 | 17 => stored(lead, &at_limit(rng)),
        18 => stored(lead, &[crowded(rng)]),
        19 | 20 => stored(lead, &undecodable(rng)),
        21 => stored(lead, &set_twice(rng)),
        22 if rng.one_in(4) => long(rng),
        22 => stored(lead, &[Info(rng.below(16), rng.pick(&[0, 240, 241]), vec![])]),
        _ => stored(lead, &[machine_frame(rng)]),
    }
}

/// A body of 2 to 32 infos: the function's own, its parent, and so on.
pub fn chained_body(rng: &mut Rng) -> Vec<u32> {
    let lead = lead(rng);
    if rng.one_in(200) {
        return long(rng);
    }
    loop {
        let infos = match rng.below(16) {
            0..=5 => split(rng),
            6..=9 => chain(rng, 4),
            10 | 11 => chain(rng, 33),
            12 => parted(rng),
            13 => at_limit(rng),
            14 => undecodable(rng),
            _ => set_twice(rng),
        };
        if (2..=MOST_INFOS).contains(&infos.len()) {
            return stored(lead, &infos);
        }
    }
}

/// Begin, end and info address.
fn lead(rng: &mut Rng) -> [u32; 3] {
    let begin = rng.sized_word();
    match rng.below(24) {
        0 => [0, 0, 0],
        1 => [0, 0, 1],
        2 => [begin, begin, rng.below(2)],
        3 => [begin, begin.wrapping_sub(1), 4096],
        4 => [0, u32::MAX, 4096],
        5 => [u32::MAX, u32::MAX, 0],
        6 => [0, 1, 0],
        _ => [begin, begin.saturating_add(rng.below(1 << 16)), rng.word()],
    }
}

/// Pushes, an allocation, perhaps a frame register, saves: as compilers write them.
fn function(rng: &mut Rng) -> Info {
    let mut operations = Vec::new();
    for register in [3, 5, 6, 7, 12, 13, 14, 15] {
        if rng.one_in(2) {
            operations.push([PUSH, register, 0]);
        }
    }
    let size = 8 * rng.from_to(1, 600);
    operations.push([ALLOCATE, 0, size]);
    let framed = rng.one_in(3);
    if framed {
        operations.push([SET, 5, 0]);
    }
    for register in [3, 6, 7, 12] {
        if rng.one_in(4) {
            let kind = if framed { SAVE_FP } else { SAVE_RSP };
            operations.push([kind, register, 8 * rng.below(size / 8 + 4)]);
        }
    }
    if rng.one_in(3) {
        operations.push([OTHER, rng.below(16), 16 * rng.below(20)]);
    }
    Info(if framed { 5 } else { 0 }, 16 * rng.below(16), operations)
}

/// A function in parts, as compilers write them: one or more over the parent's frame.
fn split(rng: &mut Rng) -> Vec<Info> {
    let parent = function(rng);
    let count = rng.from_to(1, 3);
    let mut infos: Vec<Info> = (0..count).map(|_| further(rng, parent.0, parent.1)).collect();
    infos.push(parent);
    infos
}

/// A part over a parent with this frame: saves in it, pushes and an allocation of its own, or nothing.
fn further(rng: &mut Rng, frame: u32, offset: u32) -> Info {
    let save = if frame == 0 { SAVE_RSP } else { SAVE_FP };
    let operations = match rng.below(6) {
        0 => vec![],
        1 | 2 => vec![[PUSH, rng.pick(&[3, 6, 7]), 0], [PUSH, 14, 0], [ALLOCATE, 0, 8 * rng.from_to(1, 60)]],
        _ => [3, 6, 12, 14, 15].iter().map(|register| [save, *register, 8 * rng.below(80)]).collect(),
    };
    Info(frame, offset, operations)
}

/// One function's operations over two or three infos, so that the order of the infos is all that a chain adds.
fn parted(rng: &mut Rng) -> Vec<Info> {
    let Info(register, offset, mut operations) = if rng.one_in(2) { function(rng) } else { machine_frame(rng) };
    let mut infos = Vec::new();
    for _ in 0..rng.from_to(1, 2) {
        let last = operations.split_off(rng.index(operations.len() + 1));
        infos.push(Info(register, offset, last));
    }
    infos.push(Info(register, offset, operations));
    infos
}

/// Any operation that can be decoded, with words that are not read filled at random.
fn operation(rng: &mut Rng) -> Operation {
    let kind = rng.pick(&[PUSH, PUSH, ALLOCATE, SAVE_RSP, SAVE_FP, OTHER, MACHINE_FRAME, PUSH, SAVE_RSP]);
    let unread = rng.sized_word();
    match kind {
        PUSH => [kind, rng.below(16), unread],
        ALLOCATE => [kind, unread, small_value(rng)],
        SAVE_RSP | SAVE_FP => [kind, rng.below(16), small_value(rng)],
        MACHINE_FRAME if rng.one_in(3) => [kind, unread, rng.below(2)],
        _ => [OTHER, unread, rng.word()],
    }
}

fn small_value(rng: &mut Rng) -> u32 {
    match rng.below(12) {
        0 => rng.word() >> 4,
        1 => rng.below(1 << 16),
        _ => 8 * rng.below(64),
    }
}

fn operations(rng: &mut Rng, most: u32) -> Vec<Operation> {
    let count = rng.below(most + 1);
    (0..count).map(|_| operation(rng)).collect()
}

fn chain(rng: &mut Rng, most: u32) -> Vec<Info> {
    let count = match rng.below(4) {
        0 if most > 32 => rng.from_to(31, 33),
        1 if most > 32 => rng.below(2),
        _ => rng.from_to(1, most),
    };
    let most_operations = if most > 4 { 3 } else { 8 };
    let mut infos: Vec<Info> = (0..count)
        .map(|_| Info(rng.below(16), rng.below(241), operations(rng, most_operations)))
        .collect();
    if rng.one_in(3) && !infos.is_empty() {
        let i = rng.index(infos.len());
        let at = rng.index(infos[i].2.len() + 1);
        infos[i].2.insert(at, [SET, rng.word(), rng.word()]);
    }
    infos
}

/// A total, a value or a place at the end of signed 32 bits, from both sides.
fn at_limit(rng: &mut Rng) -> Vec<Info> {
    let mut operations = operations(rng, 3);
    let end: u32 = rng.pick(&[0x7fff_ffff, 0x8000_0000, 0x7fff_fffe, 0x7fff_ffd7, 0x7fff_ffcf, 0x7fff_fff7]);
    let mut before = 8u32;
    for o in &operations {
        before = before.wrapping_add(match o[0] {
            PUSH => 8,
            ALLOCATE => o[2],
            MACHINE_FRAME => 40 + 8 * o[2],
            _ => 0,
        });
    }
    match rng.below(4) {
        0 => {
            let kind = rng.pick(&[ALLOCATE, SAVE_RSP, SAVE_FP]);
            operations.push([kind, rng.below(16), rng.pick(&[0x7fff_ffff, 0x8000_0000, u32::MAX])]);
        }
        1 => {
            operations.push([ALLOCATE, 0, end.wrapping_sub(before) & 0x7fff_ffff]);
            operations.push([SAVE_RSP, rng.below(16), rng.pick(&[0, 1, 0x7fff_ffff, 0x8000_0000])]);
        }
        _ => {
            operations.push([ALLOCATE, 0, end.wrapping_sub(before)]);
            let last = rng.pick(&[PUSH, MACHINE_FRAME, SET, OTHER]);
            operations.push([last, rng.below(16), rng.below(2)]);
        }
    }
    let (register, offset) = (rng.below(16), rng.pick(&[0, 16, 240]));
    if rng.one_in(3) {
        let rest = operations.split_off(rng.index(operations.len() + 1));
        return vec![Info(register, offset, rest), Info(register, offset, operations)];
    }
    vec![Info(register, offset, operations)]
}

/// A word of an info at the end of its range, or just outside.
fn at_edge(rng: &mut Rng) -> Vec<Info> {
    let mut infos = chain(rng, 3);
    let i = rng.index(infos.len());
    let info = &mut infos[i];
    match rng.below(5) {
        0 => info.0 = rng.pick(&[15, 16]),
        1 => info.1 = rng.pick(&[240, 241]),
        2 => info.2.push([rng.pick(&[0, OTHER, 9]), rng.word(), rng.word()]),
        3 => info.2.push([MACHINE_FRAME, rng.word(), rng.pick(&[1, 2])]),
        _ => info.2.push([rng.pick(&[PUSH, SAVE_RSP, SAVE_FP]), rng.pick(&[15, 16]), rng.below(64)]),
    }
    infos
}

/// As many operations as an info may have, or one more.
fn crowded(rng: &mut Rng) -> Info {
    let count = rng.pick(&[254, 255, 256]);
    let kind = rng.pick(&[PUSH, OTHER, ALLOCATE]);
    let value = rng.below(64);
    Info(0, 0, vec![[kind, rng.below(16), value]; count])
}

fn undecodable(rng: &mut Rng) -> Vec<Info> {
    let most = rng.pick(&[6, 32]);
    let mut infos = chain(rng, most);
    if !infos.is_empty() {
        let i = rng.index(infos.len());
        let at = rng.index(infos[i].2.len() + 1);
        infos[i].2.insert(at, [UNDECODABLE, rng.word(), rng.word()]);
    }
    infos
}

fn set_twice(rng: &mut Rng) -> Vec<Info> {
    let mut infos = chain(rng, 3);
    for _ in 0..2 {
        let i = rng.index(infos.len());
        let at = rng.index(infos[i].2.len() + 1);
        infos[i].2.insert(at, [SET, rng.below(16), 0]);
    }
    if rng.one_in(4) {
        let value = rng.pick(&[0x7fff_ffff, 0x8000_0000]);
        infos[0].2.push([ALLOCATE, 0, value]);
    }
    infos
}

fn machine_frame(rng: &mut Rng) -> Info {
    let mut operations = operations(rng, 4);
    for _ in 0..=rng.below(2) {
        let at = rng.index(operations.len() + 1);
        let value = if rng.one_in(20) { 2 } else { rng.below(2) };
        operations.insert(at, [MACHINE_FRAME, rng.word(), value]);
    }
    Info(rng.below(16), rng.below(241), operations)
}

/// Pushes whose line is about as long as an entry's text may be.
fn long(rng: &mut Rng) -> Vec<u32> {
    let target = near_longest(rng);
    let empty = stored([rng.word() >> 1, u32::MAX, 1], &[Info(0, 0, vec![]), Info(5, 16, vec![])]);
    let info = |body: &[u32], added: usize| {
        let first = 4 + 3 + 3 * body[6] as usize;
        (if added < 200 { 6 } else { first + 2 }, if added < 200 { 7 } else { first + 3 })
    };
    tune(
        X64,
        target,
        empty,
        move |body, added| {
            let (count, at) = info(body, added);
            body[count] += 1;
            body.splice(at..at, [PUSH, 12, 0]);
        },
        |body, i| body[7 + 3 * i + 1] = 8,
    )
}
