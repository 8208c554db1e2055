//! Calls of a decoder: its bytes, with a room that is empty, short, exact or long, and a count of any length.

use crate::decoder::Decoder;
use crate::rng::Rng;
use crate::Tally;

/// A call: the bytes, the words that stand first in the body, the lengths of the room and of the count.
#[derive(Clone, Debug)]
pub struct Input<L> {
    pub bytes: Vec<u8>,
    pub lead: L,
    pub room_len: usize,
    /// The length of the body; none where the bytes are turned away.
    pub need: Option<usize>,
    pub count_len: usize,
}

/// The inputs of a run: those that every run has, and `count` more.
pub fn inputs<D: Decoder>(seed: u64, count: u64) -> impl Iterator<Item = Input<D::Lead>> {
    let mut rng = Rng::new(seed);
    let every = D::every().into_iter().map(Some);
    every.chain((0..count).map(|_| None)).map(move |bytes| {
        let bytes = bytes.unwrap_or_else(|| D::bytes(&mut rng));
        input::<D>(&mut rng, bytes)
    })
}

fn input<D: Decoder>(rng: &mut Rng, bytes: Vec<u8>) -> Input<D::Lead> {
    let mut lead = D::Lead::default();
    let need = D::body(&bytes, lead, &mut Tally::default()).ok().map(|body| body.len());
    let room_len = room_len(rng, need.unwrap_or(20), D::LONGEST);
    if !rng.one_in(8) {
        lead.as_mut().fill_with(|| rng.sized_word());
    }
    Input { bytes, lead, room_len, need, count_len: rng.pick(&[1, 1, 1, 0, 2, 5]) }
}

/// Room for a body of `need` words: none, one short, exact, long, or somewhere inside.
fn room_len(rng: &mut Rng, need: usize, longest: usize) -> usize {
    match rng.below(20) {
        0 | 1 => 0,
        2..=4 => need.saturating_sub(1),
        5 => rng.index(need + 1),
        6..=11 => need,
        12 | 13 => need + 1,
        14 if rng.one_in(8) => longest + rng.index(100),
        _ => need + rng.index(60),
    }
}

/// Notes the lengths of the room and of the count.
pub fn note_input<D: Decoder>(input: &Input<D::Lead>, tally: &mut Tally) {
    if let Some(need) = input.need {
        tally.count(match input.room_len {
            0 => "decode room 0",
            n if n + 1 == need => "decode room one short",
            n if n < need => "decode room shorter",
            n if n == need => "decode room exact",
            n if n == need + 1 => "decode room one over",
            n if n < D::LONGEST => "decode room longer",
            _ => "decode room for any",
        });
    }
    tally.count(match input.count_len {
        0 => "decode count 0",
        1 => "decode count 1",
        2 => "decode count 2",
        _ => "decode count more",
    });
}

/// A change of one place or length, of bytes that were good.
pub fn damage(rng: &mut Rng, bytes: &mut Vec<u8>) {
    match rng.below(6) {
        0 | 1 => bytes.truncate(rng.index(bytes.len() + 1)),
        2 if !bytes.is_empty() => {
            bytes.remove(rng.index(bytes.len()));
        }
        3 => bytes.insert(rng.index(bytes.len() + 1), rng.word() as u8),
        _ if !bytes.is_empty() => {
            for _ in 0..=rng.below(3) {
                let at = rng.index(bytes.len());
                bytes[at] ^= 1 << rng.below(8);
            }
        }
        _ => {}
    }
}
