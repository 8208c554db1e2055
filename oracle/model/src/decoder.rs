//! What the decoders of unwind bytes share, that of x64 unwind info and that of ARM64 unwind codes: the call, its outcome, what a run is made of.

use crate::rng::Rng;
use crate::Tally;
use std::fmt::Debug;

/// The words of a call that stand first in the body: an array of them.
pub trait Lead: Copy + Debug + Default + AsRef<[u32]> + AsMut<[u32]> {}

impl<T: Copy + Debug + Default + AsRef<[u32]> + AsMut<[u32]>> Lead for T {}

/// A decoder of the bytes of one function.
pub trait Decoder {
    /// Begin, end and info address, or address and size.
    type Lead: Lead;
    /// The kind of the books that its bodies belong to.
    const KIND: u32;
    /// Words of the longest body.
    const LONGEST: usize;
    /// What a run must have met, beside what it must of every decoder.
    const DUE: &'static [&'static str];

    /// The body, or the number that turns the bytes away; the room is not looked at.
    fn body(bytes: &[u8], lead: Self::Lead, tally: &mut Tally) -> Result<Vec<u32>, u32>;

    /// Bytes of any sort.
    fn bytes(rng: &mut Rng) -> Vec<u8>;

    /// Bytes that every run tries.
    fn every() -> Vec<Vec<u8>> {
        Vec::new()
    }
}

/// Everything that a call leaves behind.
#[derive(Clone, Debug, PartialEq, Eq)]
pub struct Decoded {
    pub number: u32,
    pub filled: usize,
    /// The whole room afterwards.
    pub room: Vec<u32>,
}

/// The outcome of a call; `room` is what stands there before.
pub fn decode<D: Decoder>(bytes: &[u8], lead: D::Lead, room: &[u32], tally: &mut Tally) -> Decoded {
    let mut after = room.to_vec();
    let made = D::body(bytes, lead, tally).and_then(|body| match after.get_mut(..body.len()) {
        Some(place) => {
            place.copy_from_slice(&body);
            Ok(body.len())
        }
        None => Err(9),
    });
    tally.entry_ends(made.is_ok());
    tally.count(called(made.err().unwrap_or(0), room.is_empty()));
    Decoded { number: made.err().unwrap_or(0), filled: made.unwrap_or(0), room: after }
}

fn called(number: u32, no_room: bool) -> &'static str {
    match (number, no_room) {
        (0, _) => "decode 0",
        (4, false) => "decode 4",
        (4, true) => "decode 4, no room",
        (9, false) => "decode 9",
        (9, true) => "decode 9, no room",
        (10, false) => "decode 10",
        (10, true) => "decode 10, no room",
        (11, false) => "decode 11",
        (11, true) => "decode 11, no room",
        (12, false) => "decode 12",
        (12, true) => "decode 12, no room",
        _ => panic!("no decoder gives {number}"),
    }
}
