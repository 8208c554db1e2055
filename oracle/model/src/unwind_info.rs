//! The unwind info of an x64 function, from the bytes of the image to an x64 body: Microsoft's x64 page, version 1. A second reading of its rules:
//! the bytes are cut into parts, each part is read into operations, the body is made of them, and only then looked at beside the room.

use crate::book::MOST_WORDS;
use crate::decoder::Decoder;
use crate::rng::Rng;
use crate::{due, gen, Tally, X64};

const MOST_PARTS: usize = 32;

type Slot = [u8; 2];

struct Part {
    frame_register: u32,
    frame_offset: u32,
    slots: Vec<Slot>,
}

/// Kind, register and value.
type Operation = [u32; 3];

/// The decoder.
pub struct UnwindInfo;

impl Decoder for UnwindInfo {
    type Lead = [u32; 3];
    const KIND: u32 = X64;
    /// 32 infos of 255 operations.
    const LONGEST: usize = 4 + MOST_PARTS * (3 + 3 * 255);
    const DUE: &'static [&'static str] = due::DECODE_X64;

    fn body(bytes: &[u8], lead: [u32; 3], tally: &mut Tally) -> Result<Vec<u32>, u32> {
        body(bytes, lead, tally)
    }

    fn bytes(rng: &mut Rng) -> Vec<u8> {
        gen::unwind_info::bytes(rng)
    }
}

/// `lead` is begin, end and info address.
fn body(bytes: &[u8], lead: [u32; 3], tally: &mut Tally) -> Result<Vec<u32>, u32> {
    let parts = parts(bytes, tally)?;
    match parts.len() {
        0 => tally.count("decode 4: no part"),
        1 => tally.note("decode parts: 1"),
        2 => tally.note("decode parts: 2"),
        3 => tally.note("decode parts: 3"),
        4..=31 => tally.note("decode parts: 4 to 31"),
        32 => tally.note("decode parts: 32"),
        33 => tally.count("decode 4: 33 parts"),
        _ => tally.count("decode 4: more parts"),
    }
    if parts.is_empty() || parts.len() > MOST_PARTS {
        return Err(4);
    }
    let mut body = lead.to_vec();
    body.push(parts.len() as u32);
    for (i, part) in parts.iter().enumerate() {
        let operations = operations(part, parts.len() - 1 - i, tally);
        body.extend([part.frame_register, part.frame_offset, operations.len() as u32]);
        body.extend(operations.iter().flatten());
    }
    if body.len() > MOST_WORDS {
        tally.note("decode body longer than a book");
    }
    if body.len() == UnwindInfo::LONGEST {
        tally.note("decode body of 24580 words");
    }
    Ok(body)
}

/// The parts one after the other, to the bytes' end.
fn parts(bytes: &[u8], tally: &mut Tally) -> Result<Vec<Part>, u32> {
    let mut parts = Vec::new();
    let mut rest = bytes;
    while !rest.is_empty() {
        match part(rest) {
            Ok((part, behind)) => {
                parts.push(part);
                rest = behind;
            }
            Err((number, why)) => {
                tally.count(why);
                note_place(number, parts.len(), tally);
                return Err(number);
            }
        }
    }
    Ok(parts)
}

/// The first part of the bytes, and what stands behind it.
fn part(bytes: &[u8]) -> Result<(Part, &[u8]), (u32, &'static str)> {
    if bytes[0] % 8 != 1 {
        return Err((10, if bytes.len() < 4 { "decode 10: one to three bytes" } else { "decode 10: version" }));
    }
    let (header, behind) = bytes.split_first_chunk::<4>().ok_or((11, "decode 11: header short"))?;
    let (slots, behind) = behind.split_at_checked(2 * usize::from(header[2])).ok_or((11, "decode 11: slots short"))?;
    let frame = u32::from(header[3]);
    let part = Part {
        frame_register: frame % 16,
        frame_offset: frame / 16 * 16,
        slots: slots.chunks(2).map(|slot| [slot[0], slot[1]]).collect(),
    };
    Ok((part, behind))
}

/// Where a part stands that is turned away.
fn note_place(number: u32, good: usize, tally: &mut Tally) {
    tally.count(match (number, good) {
        (10, 0) => "decode 10 in the first part",
        (10, 33) => "decode 10 behind 33 parts",
        (10, _) => "decode 10 in a later part",
        (_, 0) => "decode 11 in the first part",
        (_, 33) => "decode 11 behind 33 parts",
        _ => "decode 11 in a later part",
    });
}

/// A part's operations in stored order; `behind` is how many parts follow.
fn operations(part: &Part, behind: usize, tally: &mut Tally) -> Vec<Operation> {
    let framed = part.frame_register != 0;
    if !framed && part.frame_offset != 0 {
        tally.note("decode offset of frame register 0");
    }
    let mut operations = Vec::new();
    let mut rest = &part.slots[..];
    while !rest.is_empty() {
        match operation(rest, framed) {
            Ok((name, slots, operation)) => {
                tally.note(name);
                operations.push(operation);
                rest = &rest[slots..];
            }
            Err(why) => {
                tally.note(why);
                note_undecodable(rest.len() > 1, behind, tally);
                operations.push([8, 0, 0]);
                break;
            }
        }
    }
    note_operations(&operations, tally);
    operations
}

/// The first operation of the slots: its name, its slots, its words. Otherwise why it cannot be decoded.
fn operation(slots: &[Slot], framed: bool) -> Result<(&'static str, usize, Operation), &'static str> {
    let (code, info) = (slots[0][1] % 16, u32::from(slots[0][1] / 16));
    let past = past_the_count(code, slots.len());
    let slot = |i: usize| slots.get(i).map(|&slot| u32::from(u16::from_le_bytes(slot))).ok_or(past);
    let word = || Ok(slot(1)? + (slot(2)? << 16));
    let save = if framed { 4 } else { 3 };
    Ok(match (code, info) {
        (0, _) => ("decode push", 1, [1, info, 0]),
        (1, 0) => ("decode allocate large", 2, [2, 0, slot(1)? * 8]),
        (1, 1) => ("decode allocate large, far", 3, [2, 0, word()?]),
        (1, _) => return Err("decode undefined info of 1"),
        (2, _) => ("decode allocate small", 1, [2, 0, info * 8 + 8]),
        (3, 0) => ("decode set frame", 1, [5, 0, 0]),
        (3, _) => ("decode set frame, info not 0", 1, [5, 0, 0]),
        (4, _) if framed => ("decode save, frame register", 2, [save, info, slot(1)? * 8]),
        (4, _) => ("decode save", 2, [save, info, slot(1)? * 8]),
        (5, _) if framed => ("decode save far, frame register", 3, [save, info, word()?]),
        (5, _) => ("decode save far", 3, [save, info, word()?]),
        (8, _) => ("decode save xmm", 2, slot(1).map(|_| [7, 0, 0])?),
        (9, _) => ("decode save xmm far", 3, word().map(|_| [7, 0, 0])?),
        (10, 0) => ("decode machine frame", 1, [6, 0, 0]),
        (10, 1) => ("decode machine frame, error code", 1, [6, 0, 1]),
        (10, _) => return Err("decode undefined info of 10"),
        (6, _) => return Err("decode undefined code 6"),
        (7, _) => return Err("decode undefined code 7"),
        (11, _) => return Err("decode undefined code 11"),
        (12, _) => return Err("decode undefined code 12"),
        (13, _) => return Err("decode undefined code 13"),
        (14, _) => return Err("decode undefined code 14"),
        _ => return Err("decode undefined code 15"),
    })
}

/// The name of an operation whose slots run past the count, by the slots that it has.
fn past_the_count(code: u8, slots: usize) -> &'static str {
    match (code, slots) {
        (1, 1) => "decode past the count: 1, slot 1",
        (1, _) => "decode past the count: 1, slot 2",
        (4, _) => "decode past the count: 4",
        (5, 1) => "decode past the count: 5, slot 1",
        (5, _) => "decode past the count: 5, slot 2",
        (8, _) => "decode past the count: 8",
        (9, 1) => "decode past the count: 9, slot 1",
        _ => "decode past the count: 9, slot 2",
    }
}

fn note_undecodable(slots_behind: bool, parts_behind: usize, tally: &mut Tally) {
    match parts_behind {
        0 => {}
        1 => tally.note("decode a part behind a kind 8"),
        _ => tally.note("decode parts behind a kind 8"),
    }
    if slots_behind && parts_behind > 0 {
        tally.note("decode slots, part behind a kind 8");
    }
}

fn note_operations(operations: &[Operation], tally: &mut Tally) {
    // Stored order: what stands behind the set frame comes before it in the prolog.
    let set = operations.iter().position(|o| o[0] == 5);
    for (i, operation) in operations.iter().enumerate() {
        match (operation[0], set) {
            (4, None) => tally.note("decode save fp without set frame"),
            (4, Some(set)) if i > set => tally.note("decode save fp before set frame"),
            (4, Some(_)) => tally.note("decode save fp after set frame"),
            _ => {}
        }
        if operation[2] >= 1 << 31 {
            tally.note(if operation[0] == 2 { "decode allocation from 2^31 on" } else { "decode save from 2^31 on" });
        }
    }
    match operations.len() {
        0 => tally.note("decode part without operations"),
        255 => tally.note("decode part of 255 operations"),
        _ => {}
    }
}
