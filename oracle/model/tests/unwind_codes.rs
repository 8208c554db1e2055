//! Hand-made ARM64 unwind codes: every code, every refusal, the limits.

mod hand;

use model::decoder::Decoder;
use model::unwind_codes::{UnwindCodes, CODES};

const LEAD: [u32; 2] = [0x1000, 0x40];
const LONGEST: usize = UnwindCodes::LONGEST;

const ALLOC_S: u8 = 0x01;
const NOP: u8 = 0xe3;
const END: u8 = 0xe4;

fn body(bytes: &[u8]) -> Vec<u32> {
    hand::body::<UnwindCodes>(bytes, LEAD)
}

fn refused(bytes: &[u8], room: usize, number: u32) {
    hand::refused::<UnwindCodes>(bytes, LEAD, room, number)
}

/// The operations of bytes.
fn operations(bytes: &[u8]) -> Vec<[u32; 4]> {
    let body = body(bytes);
    let (head, rest) = body.split_at(3);
    assert_eq!(head[..2], LEAD);
    assert_eq!(rest.len(), 4 * head[2] as usize);
    rest.chunks(4).map(|o| [o[0], o[1], o[2], o[3]]).collect()
}

/// The operation of a code that stands before another, which is read too.
fn operation(bytes: &[u8]) -> [u32; 4] {
    let both = operations(&[bytes, &[ALLOC_S]].concat());
    assert_eq!(both[1..], [[1, 0, 0, 16]]);
    both[0]
}

/// A code that ends the list; what stands behind it is not read, also where it is cut.
fn ends(bytes: &[u8], kind: u32) {
    for behind in [&[][..], &[ALLOC_S], &[0xe0], &[0xfb, 1, 2]] {
        assert_eq!(operations(&[&[0xe6], bytes, behind].concat()), [[7, 0, 0, 0], [kind, 0, 0, 0]]);
    }
}

#[test]
fn allocations() {
    assert_eq!(operation(&[0x00]), [1, 0, 0, 0]);
    assert_eq!(operation(&[0x1f]), [1, 0, 0, 31 * 16]);
    assert_eq!(operation(&[0xc0, 0x00]), [1, 0, 0, 0]);
    assert_eq!(operation(&[0xc1, 0x02]), [1, 0, 0, 0x102 * 16]);
    assert_eq!(operation(&[0xc7, 0xff]), [1, 0, 0, 0x7ff * 16]);
    assert_eq!(operation(&[0xe0, 0x12, 0x34, 0x56]), [1, 0, 0, 0x0123_4560]);
    assert_eq!(operation(&[0xe0, 0xff, 0xff, 0xff]), [1, 0, 0, 0x0fff_fff0]);
}

#[test]
fn one_byte_pairs() {
    assert_eq!(operation(&[0x20]), [5, 0, 19, 0]);
    assert_eq!(operation(&[0x24]), [5, 0, 19, 32]);
    assert_eq!(operation(&[0x3f]), [5, 0, 19, 248]);
    assert_eq!(operation(&[0x40]), [4, 0, 29, 0]);
    assert_eq!(operation(&[0x42]), [4, 0, 29, 16]);
    assert_eq!(operation(&[0x7f]), [4, 0, 29, 504]);
    assert_eq!(operation(&[0x80]), [5, 0, 29, 8]);
    assert_eq!(operation(&[0x85]), [5, 0, 29, 48]);
    assert_eq!(operation(&[0xbf]), [5, 0, 29, 512]);
}

#[test]
fn integer_registers() {
    // save_regp: four bits of X, six of Z.
    assert_eq!(operation(&[0xc8, 0x82]), [4, 0, 21, 16]);
    assert_eq!(operation(&[0xcb, 0xff]), [4, 0, 34, 504]);
    assert_eq!(operation(&[0xcc, 0x05]), [5, 0, 19, 48]);
    assert_eq!(operation(&[0xce, 0x40]), [5, 0, 28, 8]);
    assert_eq!(operation(&[0xcf, 0xff]), [5, 0, 34, 512]);
    assert_eq!(operation(&[0xd0, 0x83]), [2, 0, 21, 24]);
    assert_eq!(operation(&[0xd2, 0xc0]), [2, 0, 30, 0]);
    assert_eq!(operation(&[0xd3, 0xff]), [2, 0, 34, 504]);
    // save_reg_x: four bits of X, five of Z.
    assert_eq!(operation(&[0xd4, 0x21]), [3, 0, 20, 16]);
    assert_eq!(operation(&[0xd5, 0x61]), [3, 0, 30, 16]);
    assert_eq!(operation(&[0xd5, 0xff]), [3, 0, 34, 256]);
    // save_lrpair: three bits of X, two registers each.
    assert_eq!(operation(&[0xd6, 0x02]), [6, 0, 19, 16]);
    assert_eq!(operation(&[0xd6, 0xc4]), [6, 0, 25, 32]);
    assert_eq!(operation(&[0xd7, 0xff]), [6, 0, 33, 504]);
}

#[test]
fn floating_point_registers() {
    assert_eq!(operation(&[0xd8, 0x42]), [4, 1, 9, 16]);
    assert_eq!(operation(&[0xd9, 0xff]), [4, 1, 15, 504]);
    assert_eq!(operation(&[0xda, 0x07]), [5, 1, 8, 64]);
    assert_eq!(operation(&[0xdb, 0xff]), [5, 1, 15, 512]);
    assert_eq!(operation(&[0xdc, 0x83]), [2, 1, 10, 24]);
    assert_eq!(operation(&[0xdd, 0xff]), [2, 1, 15, 504]);
    assert_eq!(operation(&[0xde, 0x21]), [3, 1, 9, 16]);
    assert_eq!(operation(&[0xde, 0xff]), [3, 1, 15, 256]);
}

#[test]
fn any_registers() {
    // Alone, without an index: 8 bytes for x and d, 16 for q.
    assert_eq!(operation(&[0xe7, 0x13, 0x02]), [2, 0, 19, 16]);
    assert_eq!(operation(&[0xe7, 0x1f, 0x7f]), [2, 1, 31, 504]);
    assert_eq!(operation(&[0xe7, 0x08, 0x82]), [2, 2, 8, 32]);
    // Pre-indexed: one more, of 16 bytes.
    assert_eq!(operation(&[0xe7, 0x33, 0x00]), [3, 0, 19, 16]);
    assert_eq!(operation(&[0xe7, 0x28, 0x41]), [3, 1, 8, 32]);
    assert_eq!(operation(&[0xe7, 0x28, 0xbf]), [3, 2, 8, 1024]);
    // Pairs: 16 bytes.
    assert_eq!(operation(&[0xe7, 0x53, 0x02]), [4, 0, 19, 32]);
    assert_eq!(operation(&[0xe7, 0x48, 0x42]), [4, 1, 8, 32]);
    assert_eq!(operation(&[0xe7, 0x5f, 0xbf]), [4, 2, 31, 1008]);
    assert_eq!(operation(&[0xe7, 0x7d, 0x00]), [5, 0, 29, 16]);
    assert_eq!(operation(&[0xe7, 0x68, 0x7f]), [5, 1, 8, 1024]);
    assert_eq!(operation(&[0xe7, 0x60, 0x81]), [5, 2, 0, 32]);
}

#[test]
fn codes_without_a_kind() {
    let codes = [&[0xe1][..], &[0xe2, 0], &[0xe2, 255], &[0xe3], &[0xfc], &[0xdf, 0], &[0xdf, 255]];
    for code in codes {
        assert_eq!(operation(code), [8, 0, 0, 0]);
    }
    assert_eq!(operation(&[0xe6]), [7, 0, 0, 0]);
    // save_zreg, and save_preg but for P0 to P3.
    for second in 0..0x80u8 {
        for third in 0xc0..=0xff {
            let reserved = second & 0x1f >= 16 && second & 0x1f < 20;
            if reserved {
                ends(&[0xe7, second, third], 10);
            } else {
                assert_eq!(operation(&[0xe7, second, third]), [8, 0, 0, 0]);
            }
        }
    }
}

#[test]
fn what_ends_the_list() {
    ends(&[0xe4], 9);
    ends(&[0xe5], 9);
    for first in (0xe8..=0xf7).chain(0xfd..=0xff) {
        ends(&[first], 10);
    }
    for (first, length) in [(0xf8, 2), (0xf9, 3), (0xfa, 4), (0xfb, 5)] {
        ends(&[first, 1, 2, 3, 4][..length], 10);
        ends(&[first, 0xe4, 0xe4, 0xe4, 0xe4][..length], 10);
    }
    for second in 0x80..=0xff {
        ends(&[0xe7, second, 0x00], 10);
        ends(&[0xe7, second, 0xff], 10);
    }
}

#[test]
fn a_prolog() {
    // sub sp, sp, #64; str x21, [sp, #32]; stp x19, x20, [sp, #16]; mov x29, sp; stp x29, x30, [sp, #-48]!
    let bytes = [0x04, 0xd0, 0x84, 0xc8, 0x02, 0xe1, 0x85, 0xe4, 0x85, 0xe4, 0xe3, 0xe3];
    let due = [[1, 0, 0, 64], [2, 0, 21, 32], [4, 0, 19, 16], [8, 0, 0, 0], [5, 0, 29, 48], [9, 0, 0, 0]];
    assert_eq!(operations(&bytes), due);
    // The bytes' end ends the list too.
    assert_eq!(operations(&bytes[..7]), due[..5]);
    assert_eq!(body(&[]), [LEAD[0], LEAD[1], 0]);
    hand::room::<UnwindCodes>(&[], LEAD, 0..3);
}

/// The codes of two bytes and more: their first bytes, and their lengths.
fn long_codes() -> impl Iterator<Item = (u8, usize)> {
    let longer = [(0xe0, 4), (0xe2, 2), (0xe7, 3), (0xf8, 2), (0xf9, 3), (0xfa, 4), (0xfb, 5)];
    (0xc0..=0xdf).map(|first| (first, 2)).chain(longer)
}

#[test]
fn bytes_that_end_in_a_code() {
    for (first, length) in long_codes() {
        for filling in [0x00, 0x80, 0xe4, 0xff] {
            let code = [&[first][..], &[filling; 4]].concat();
            for cut in 1..length {
                refused(&code[..cut], 20, 12);
                refused(&[&[ALLOC_S], &code[..cut]].concat(), 0, 12);
            }
            body(&code[..length]);
        }
    }
}

#[test]
fn codes_of_one_byte_are_never_cut() {
    for first in 0..=255 {
        if long_codes().all(|(long, _)| long != first) {
            assert_eq!(operations(&[first]).len(), 1);
        }
    }
}

#[test]
fn numbers_of_operations() {
    let many = |n: usize| vec![NOP; n];
    for n in [1, 2, 1023, 1024] {
        assert_eq!(operations(&many(n)), vec![[8, 0, 0, 0]; n]);
    }
    assert_eq!(operations(&[many(1023), vec![END]].concat()).len(), 1024);
    assert_eq!(operations(&[many(1023), vec![0xff]].concat())[1023], [10, 0, 0, 0]);
    assert_eq!(operations(&[many(500), vec![END], many(2000)].concat()).len(), 501);
    for bytes in [many(1025), many(5000), [many(1024), vec![END]].concat(), [many(1024), vec![0xe8]].concat()] {
        refused(&bytes, LONGEST + 9, 4);
        refused(&bytes, 0, 4);
    }
}

#[test]
fn cut_codes_come_before_the_number_of_operations() {
    for n in [1023, 1024, 1025, 3000] {
        for cut in [&[0xe0, 1, 2][..], &[0xc0], &[0xf8], &[0xfb, 1, 2, 3], &[0xe7, 0x80]] {
            refused(&[&vec![NOP; n], cut].concat(), LONGEST, 12);
            refused(&[&vec![NOP; n], cut].concat(), 0, 12);
        }
    }
    // Behind an end nothing is cut, and only the number counts.
    refused(&[vec![NOP; 1024], vec![END, 0xe0]].concat(), LONGEST, 4);
    assert_eq!(operations(&[vec![NOP; 1023], vec![END, 0xe0]].concat()).len(), 1024);
}

#[test]
fn longest_body() {
    assert_eq!(LONGEST, 4099);
    hand::room::<UnwindCodes>(&[NOP; 1024], LEAD, LONGEST - 1..LONGEST);
}

#[test]
fn room() {
    hand::room::<UnwindCodes>(&[0x04, 0xc8, 0x82, END, 0xe0], LEAD, 0..3 + 4 * 3);
}

#[test]
fn every_code_is_one_of_the_list() {
    let fitting = |bytes: &[u8]| CODES.iter().filter(|code| code.fits(bytes)).count();
    for first in 0..=255 {
        for second in 0..=255 {
            for third in [0x00, 0x3f, 0x40, 0x7f, 0x80, 0xbf, 0xc0, 0xff] {
                assert_eq!(fitting(&[first, second, third, 0, 0]), 1, "{first:x} {second:x} {third:x}");
            }
        }
    }
}
