//! Calls of a decoder on hand-made bytes.

use model::decoder::{decode, Decoded, Decoder};
use model::Tally;
use std::ops::Range;

const BEFORE: u32 = 0x7777_7777;

fn call<D: Decoder>(bytes: &[u8], lead: D::Lead, room: usize) -> Decoded {
    decode::<D>(bytes, lead, &vec![BEFORE; room], &mut Tally::default())
}

/// The body's words; the room behind them is unchanged.
pub fn body<D: Decoder>(bytes: &[u8], lead: D::Lead) -> Vec<u32> {
    let done = call::<D>(bytes, lead, D::LONGEST + 3);
    assert_eq!(done.number, 0);
    let (body, rest) = done.room.split_at(done.filled);
    assert!(rest.iter().all(|&word| word == BEFORE));
    body.to_vec()
}

pub fn refused<D: Decoder>(bytes: &[u8], lead: D::Lead, room: usize, number: u32) {
    assert_eq!(call::<D>(bytes, lead, room), Decoded { number, filled: 0, room: vec![BEFORE; room] });
}

/// Rooms that are too short up to the range's end, which is the body's length, and one word more.
pub fn room<D: Decoder>(bytes: &[u8], lead: D::Lead, short: Range<usize>) {
    let body = body::<D>(bytes, lead);
    assert_eq!(body.len(), short.end);
    for room in short {
        refused::<D>(bytes, lead, room, 9);
    }
    assert_eq!(call::<D>(bytes, lead, body.len()).room, body);
    assert_eq!(call::<D>(bytes, lead, body.len() + 1).room, [body, vec![BEFORE]].concat());
}
