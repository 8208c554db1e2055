//! Unwind codes of ARM64 functions as bytes: as compilers write them, at the limits, damaged, and plain bytes.

use super::input::damage;
use crate::rng::Rng;
use crate::unwind_codes::{Code, CODES};

const MOST_OPERATIONS: usize = 1024;

const NOP: u8 = 0xe3;
const END: u8 = 0xe4;
const END_C: u8 = 0xe5;

pub fn bytes(rng: &mut Rng) -> Vec<u8> {
    match rng.below(60) {
        0..=17 => function(rng),
        18..=31 => {
            let most = rng.pick(&[1, 4, 4, 12]);
            ended(rng, most)
        }
        32..=38 => cut(rng, 6),
        39..=41 => limits(rng),
        42 => cut_behind_many(rng),
        43 => Vec::new(),
        44..=53 => {
            let mut bytes = function(rng);
            damage(rng, &mut bytes);
            bytes
        }
        _ => (0..rng.below(40)).map(|_| rng.word() as u8).collect(),
    }
}

/// Every first byte, all codes of two bytes, and all of first byte E7.
pub fn every() -> Vec<Vec<u8>> {
    let firsts = (0..=255).map(|first| vec![first, 0x12, 0x34, 0x56, 0x78]);
    let pairs = (0xc0..=0xdf).chain([0xe2, 0xf8]).flat_map(|first| (0..=255).map(move |second| vec![first, second]));
    let any_registers = (0..=u16::MAX).map(|both| [&[0xe7][..], &both.to_be_bytes(), &[NOP]].concat());
    firsts.chain(pairs).chain(any_registers).collect()
}

/// A code of this kind: its free bits at random, or all alike.
fn filled(rng: &mut Rng, code: &Code) -> Vec<u8> {
    let alike = rng.pick(&[None, None, None, None, Some(0), Some(1)]);
    let mut bit = |sign: &u8| match sign {
        b'0' => 0,
        b'1' => 1,
        _ => alike.unwrap_or_else(|| rng.below(2) as u8),
    };
    code.patterns().map(|signs| signs.iter().fold(0, |byte, sign| byte << 1 | bit(sign))).collect()
}

/// Any code that ends the list, or any that does not.
fn code(rng: &mut Rng, ends: bool) -> Vec<u8> {
    loop {
        let code = &CODES[rng.index(CODES.len())];
        if code.ends() == ends {
            return filled(rng, code);
        }
    }
}

/// At most so many codes, none of which ends the list.
fn codes(rng: &mut Rng, most: u32) -> Vec<u8> {
    (0..rng.below(most + 1)).flat_map(|_| code(rng, false)).collect()
}

/// What stands first behind the operations: nothing, an end, or another code that ends the list.
fn ending(rng: &mut Rng) -> Vec<u8> {
    match rng.below(6) {
        0 | 1 => Vec::new(),
        2 => vec![END],
        3 => vec![END_C],
        _ => code(rng, true),
    }
}

/// What stands behind the list.
fn behind(rng: &mut Rng) -> Vec<u8> {
    match rng.below(12) {
        0..=5 => Vec::new(),
        6 | 7 => codes(rng, 5),
        8 => cut(rng, 3),
        9 if rng.one_in(20) => vec![NOP; MOST_OPERATIONS + rng.index(9)],
        _ => (0..rng.below(9)).map(|_| rng.word() as u8).collect(),
    }
}

fn ended(rng: &mut Rng, most: u32) -> Vec<u8> {
    let (mut bytes, ending) = (codes(rng, most), ending(rng));
    bytes.extend(&ending);
    if !ending.is_empty() {
        bytes.extend(behind(rng));
    }
    bytes
}

/// A prolog as compilers write it, stored last one first, an end, codes of an epilog and its end, and bytes to the next word.
fn function(rng: &mut Rng) -> Vec<u8> {
    let (low, high) = (rng.word() as u8, rng.word() as u8);
    let prolog = [
        vec![low & 0x1f],
        vec![0xc0 | high & 7, low],
        vec![0xe0, 0, high & 15, low],
        vec![0xe1],
        vec![0xe2, low],
        vec![0xd8 | high & 1, low],
        vec![0xe6],
        vec![0xdc | high & 1, low],
        vec![0xd6 | high & 1, low],
        vec![0xd0 | high & 3, low],
        vec![0xc8 | high & 3, low],
        vec![0xe6],
        vec![0x40 | high & 0x3f],
        vec![0xcc | high & 3, low],
        vec![0xd4 | high & 1, low],
        vec![0x20 | low & 0x1f],
        vec![0x80 | high & 0x3f],
        vec![0xfc],
    ];
    let mut bytes: Vec<u8> = prolog.into_iter().filter(|_| rng.one_in(4)).flatten().collect();
    let from = rng.index(bytes.len() + 1);
    bytes.push(END);
    if rng.one_in(2) {
        bytes.extend_from_within(from..);
    }
    let padded = bytes.len().next_multiple_of(4);
    bytes.resize(padded, rng.pick(&[NOP, END, 0]));
    bytes
}

/// A code at the end of which bytes are missing, behind others.
fn cut(rng: &mut Rng, most: u32) -> Vec<u8> {
    let mut bytes = codes(rng, most);
    let long: Vec<&Code> = CODES.iter().filter(|code| code.length() > 1).collect();
    let code = rng.pick(&long);
    let code = filled(rng, code);
    bytes.extend(&code[..1 + rng.index(code.len() - 1)]);
    bytes
}

/// About as many operations as a body may have, with an end or without.
fn limits(rng: &mut Rng) -> Vec<u8> {
    let count = MOST_OPERATIONS - 3 + rng.index(7);
    let mut bytes = many(rng, count);
    bytes.extend(ending(rng));
    bytes
}

/// So many codes that do not end the list; often the same one.
fn many(rng: &mut Rng, count: usize) -> Vec<u8> {
    if rng.one_in(2) {
        return code(rng, false).repeat(count);
    }
    (0..count).flat_map(|_| code(rng, false)).collect()
}

fn cut_behind_many(rng: &mut Rng) -> Vec<u8> {
    let count = MOST_OPERATIONS - 1 + rng.index(4);
    let mut bytes = many(rng, count);
    bytes.extend(cut(rng, 0));
    bytes
}
