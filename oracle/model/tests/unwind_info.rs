//! Hand-made unwind info: every operation, every refusal, the limits.

mod hand;

use model::decoder::Decoder;
use model::unwind_info::UnwindInfo;

const LEAD: [u32; 3] = [0x1000, 0x1040, 0x5000];
const LONGEST: usize = UnwindInfo::LONGEST;

fn body(bytes: &[u8]) -> Vec<u32> {
    hand::body::<UnwindInfo>(bytes, LEAD)
}

fn refused(bytes: &[u8], room: usize, number: u32) {
    hand::refused::<UnwindInfo>(bytes, LEAD, room, number)
}

/// A part of version 1; the count is that of the slots.
fn part(frame: u8, slots: &[[u8; 2]]) -> Vec<u8> {
    [&[1, 0x17, slots.len() as u8, frame], slots.concat().as_slice()].concat()
}

/// The operations of a part that stands alone.
fn operations(frame: u8, slots: &[[u8; 2]]) -> Vec<[u32; 3]> {
    let body = body(&part(frame, slots));
    let (head, rest) = body.split_at(7);
    assert_eq!(head[..6], [LEAD[0], LEAD[1], LEAD[2], 1, u32::from(frame & 15), u32::from(frame & 240)]);
    assert_eq!(rest.len(), 3 * head[6] as usize);
    rest.chunks(3).map(|o| [o[0], o[1], o[2]]).collect()
}

#[test]
fn operations_of_one_slot() {
    assert_eq!(operations(0, &[[4, 0x30]]), [[1, 3, 0]]);
    assert_eq!(operations(0, &[[4, 0xf0]]), [[1, 15, 0]]);
    assert_eq!(operations(0, &[[4, 0x02]]), [[2, 0, 8]]);
    assert_eq!(operations(0, &[[4, 0xf2]]), [[2, 0, 128]]);
    assert_eq!(operations(0x25, &[[4, 0x03]]), [[5, 0, 0]]);
    assert_eq!(operations(0x20, &[[4, 0xf3]]), [[5, 0, 0]]);
    assert_eq!(operations(0, &[[4, 0x0a]]), [[6, 0, 0]]);
    assert_eq!(operations(0, &[[4, 0x1a]]), [[6, 0, 1]]);
}

#[test]
fn operations_of_more_slots() {
    assert_eq!(operations(0, &[[4, 0x01], [0x34, 0x12]]), [[2, 0, 0x1234 * 8]]);
    assert_eq!(operations(0, &[[4, 0x01], [0xff, 0xff]]), [[2, 0, 0x7fff8]]);
    assert_eq!(operations(0, &[[4, 0x11], [0x78, 0x56], [0x34, 0x92]]), [[2, 0, 0x9234_5678]]);
    for (frame, kind) in [(0, 3), (0xf0, 3), (0x05, 4), (0x3f, 4)] {
        assert_eq!(operations(frame, &[[4, 0x64], [0x02, 0x01]]), [[kind, 6, 0x102 * 8]]);
        assert_eq!(operations(frame, &[[4, 0x75], [1, 2], [3, 0x84]]), [[kind, 7, 0x8403_0201]]);
        assert_eq!(operations(frame, &[[4, 0x68], [0x02, 0x01]]), [[7, 0, 0]]);
        assert_eq!(operations(frame, &[[4, 0x69], [1, 2], [3, 4]]), [[7, 0, 0]]);
    }
}

#[test]
fn operations_in_a_row() {
    let slots = [[9, 0x34], [3, 0], [8, 0x01], [64, 0], [7, 0x03], [6, 0x64], [2, 0], [1, 0x50]];
    assert_eq!(operations(0x15, &slots), [[4, 3, 24], [2, 0, 512], [5, 0, 0], [4, 6, 16], [1, 5, 0]]);
    assert_eq!(operations(0, &[]), [[0; 3]; 0]);
}

#[test]
fn undefined_codes_and_infos() {
    for code in [6, 7, 11, 12, 13, 14, 15] {
        for info in 0..16 {
            assert_eq!(operations(5, &[[9, 0x30], [4, code | info << 4], [2, 0x50]]), [[1, 3, 0], [8, 0, 0]]);
        }
    }
    for info in 2..16 {
        assert_eq!(operations(0, &[[4, 0x01 | info << 4], [1, 0], [0, 0]]), [[8, 0, 0]]);
        assert_eq!(operations(0, &[[4, 0x0a | info << 4], [2, 0x50]]), [[8, 0, 0]]);
    }
}

#[test]
fn slots_past_the_count() {
    for (code, slots) in [(0x01, 2), (0x11, 3), (0x34, 2), (0x35, 3), (0x38, 2), (0x39, 3)] {
        for has in 1..slots {
            let mut all = vec![[9, 0x30], [4, code]];
            all.resize(1 + has, [0, 0]);
            assert_eq!(operations(0, &all), [[1, 3, 0], [8, 0, 0]]);
            // The slots that it would need stand behind the count, as the next part.
            let bytes = [part(0, &all), part(0, &[[1, 0x50]])].concat();
            assert_eq!(body(&bytes)[3..], [2, 0, 0, 2, 1, 3, 0, 8, 0, 0, 0, 0, 1, 1, 5, 0]);
        }
    }
}

#[test]
fn parts_follow_a_kind_8() {
    let broken = part(0x23, &[[9, 0x30], [8, 0x06], [7, 0x02], [6, 0x01], [1, 0]]);
    let bytes = [broken, part(0, &[[1, 0x50]]), part(0x10, &[])].concat();
    let infos = [&[3, 32, 2, 1, 3, 0, 8, 0, 0][..], &[0, 0, 1, 1, 5, 0], &[0, 16, 0]].concat();
    assert_eq!(body(&bytes), [&[LEAD[0], LEAD[1], LEAD[2], 3], &infos[..]].concat());
}

#[test]
fn flags_and_prolog_size_are_not_read() {
    let good = part(0, &[[1, 0x50]]);
    for flags in 0..32 {
        let mut bytes = good.clone();
        (bytes[0], bytes[1], bytes[4]) = (1 | flags << 3, flags, flags);
        assert_eq!(body(&bytes), body(&good));
    }
}

#[test]
fn versions() {
    for version in [0, 2, 3, 4, 5, 6, 7] {
        let mut bytes = part(0, &[[1, 0x50]]);
        bytes[0] = version | 0x20;
        for end in 1..=bytes.len() {
            refused(&bytes[..end], 20, 10);
            refused(&[part(0, &[]), bytes[..end].to_vec()].concat(), 0, 10);
        }
    }
}

#[test]
fn bytes_that_end_in_a_part() {
    let bytes = part(0, &[[1, 0x50], [1, 0x01], [2, 0]]);
    refused(&[], 20, 4);
    for end in 1..bytes.len() {
        refused(&bytes[..end], 20, 11);
        refused(&[&bytes, &bytes[..end]].concat(), 0, 11);
    }
    body(&bytes);
}

#[test]
fn numbers_of_parts() {
    let parts = |n: usize| part(0, &[[1, 0x50]]).repeat(n);
    refused(&[], 0, 4);
    for n in [1, 2, 31, 32] {
        assert_eq!(body(&parts(n)).len(), 4 + 6 * n);
    }
    for n in [33, 34, 300] {
        refused(&parts(n), 9000, 4);
        refused(&parts(n), 0, 4);
        refused(&[parts(n), vec![2]].concat(), 0, 10);
        refused(&[parts(n), vec![1]].concat(), 0, 11);
        refused(&[parts(n), vec![1, 0, 2, 0, 1, 0x50, 1]].concat(), 9000, 11);
    }
}

#[test]
fn longest_body() {
    let bytes = part(0x1f, &[[1, 0xf0]; 255]).repeat(32);
    assert_eq!(LONGEST, 24_580);
    assert_eq!(body(&bytes).len(), LONGEST);
    hand::room::<UnwindInfo>(&bytes, LEAD, LONGEST - 1..LONGEST);
}

#[test]
fn room() {
    let bytes = [part(0, &[[1, 0x50], [1, 0x0b], [1, 0x0b]]), part(5, &[[1, 0x03]])].concat();
    let need = 4 + 3 + 3 * 2 + 3 + 3;
    assert_eq!(body(&bytes).len(), need);
    hand::room::<UnwindInfo>(&bytes, LEAD, 0..need);
}
