//! The port's decoding of x64 unwind info and of ARM64 unwind codes, with fences around what is lent.

use crate::{counts_before, words_before, Fenced};
use model::decoder::{decode, Decoded, Decoder};
use model::gen::input::Input;
use model::unwind_codes::UnwindCodes;
use model::unwind_info::UnwindInfo;
use model::Tally;

extern "C" {
    fn stacklines_decode_x64(
        bytes: *const u8,
        bytes_len: usize,
        begin: u32,
        end: u32,
        info_address: u32,
        body: *mut u32,
        body_len: usize,
        count: *mut u64,
        count_len: usize,
    ) -> u32;

    fn stacklines_decode_arm64(
        bytes: *const u8,
        bytes_len: usize,
        address: u32,
        size: u32,
        body: *mut u32,
        body_len: usize,
        count: *mut u64,
        count_len: usize,
    ) -> u32;
}

/// A decoder that the port has.
pub trait Call: Decoder {
    /// The call, without fences.
    fn call(bytes: &[u8], lead: Self::Lead, body: &mut [u32], count: &mut [u64]) -> u32;
}

impl Call for UnwindInfo {
    #[inline]
    fn call(bytes: &[u8], lead: [u32; 3], body: &mut [u32], count: &mut [u64]) -> u32 {
        let [begin, end, address] = lead;
        let (body_len, count_len) = (body.len(), count.len());
        let (from, body, count) = (bytes.as_ptr(), body.as_mut_ptr(), count.as_mut_ptr());
        // SAFETY: every pointer leads to as many elements as its length says, and what is lent lies apart.
        unsafe { stacklines_decode_x64(from, bytes.len(), begin, end, address, body, body_len, count, count_len) }
    }
}

impl Call for UnwindCodes {
    #[inline]
    fn call(bytes: &[u8], lead: [u32; 2], body: &mut [u32], count: &mut [u64]) -> u32 {
        let [address, size] = lead;
        let (body_len, count_len) = (body.len(), count.len());
        let (from, body, count) = (bytes.as_ptr(), body.as_mut_ptr(), count.as_mut_ptr());
        // SAFETY: as above.
        unsafe { stacklines_decode_arm64(from, bytes.len(), address, size, body, body_len, count, count_len) }
    }
}

/// What one call of the port gave.
struct Called {
    number: u32,
    room: Vec<u32>,
    count: Vec<u64>,
    /// What the call must not do, and did.
    faults: Vec<&'static str>,
}

fn call<D: Call>(input: &Input<D::Lead>, room: &[u32]) -> Called {
    let mut bytes = Fenced::new(&input.bytes, 0xa5);
    let mut room = Fenced::new(room, 0x5a5a_5a5a);
    let mut count = Fenced::new(&counts_before(input.count_len), u64::MAX / 3);
    let number = D::call(bytes.inside_mut(), input.lead, room.inside_mut(), count.inside_mut());
    let checks = [
        (bytes.inside() == input.bytes, "bytes changed"),
        (bytes.whole(), "fence of the bytes"),
        (room.whole(), "fence of the room"),
        (count.whole(), "fence of the count"),
    ];
    Called {
        number,
        room: room.inside().to_vec(),
        count: count.inside().to_vec(),
        faults: checks.iter().filter(|(holds, _)| !holds).map(|(_, what)| *what).collect(),
    }
}

fn differences<L>(input: &Input<L>, due: &Decoded, called: &Called) -> Vec<String> {
    let mut found: Vec<String> = called.faults.iter().map(|f| f.to_string()).collect();
    if called.number != due.number {
        found.push(format!("number {} for {}", called.number, due.number));
    }
    let mut count = counts_before(input.count_len);
    if let Some(first) = count.first_mut() {
        *first = due.filled as u64;
    }
    if called.count != count {
        found.push(format!("count {:?} for {count:?}", called.count));
    }
    if let Some(at) = called.room.iter().zip(&due.room).position(|(a, b)| a != b) {
        found.push(format!("room from word {at}: {:x} for {:x}", called.room[at], due.room[at]));
    }
    found
}

/// What differs between a call of the port and the model's outcome.
pub fn against_model<D: Call>(input: &Input<D::Lead>, tally: &mut Tally) -> Vec<String> {
    let room = words_before(3, input.room_len);
    let due = decode::<D>(&input.bytes, input.lead, &room, tally);
    differences(input, &due, &call::<D>(input, &room))
}
