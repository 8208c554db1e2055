//! Unwind codes into entries of ARM64 books, and into lines.

mod common;

use stacklines::book::arm64::{Arm64, Letter, Operation, Slot};
use stacklines::book::{Book, Entry};
use stacklines::{decode_arm64, translate, Refusal, Undecoded, MOST_ARM64_BODY, NO_LIMIT};
use Operation::*;

/// The codes of the first function of `specimens/arm64.txt`.
const FIRST: [u8; 8] = [0x04, 0xd0, 0x84, 0xc8, 0x02, 0xe1, 0x85, 0xe4];

fn decoded(bytes: &[u8]) -> Result<Arm64, Undecoded> {
    decode_arm64(bytes, 0x1000, 0x9c)
}

fn operations(bytes: &[u8]) -> Vec<Operation> {
    let entry = decoded(bytes).unwrap();
    assert_eq!((entry.address, entry.size), (0x1000, 0x9c));
    entry.operations
}

/// Codes with what each becomes; alone, before an end, and all of them in one list.
#[track_caller]
fn become_each(codes: &[(&[u8], Operation)]) {
    for (bytes, due) in codes {
        assert_eq!(operations(bytes), [*due], "{bytes:x?}");
        assert_eq!(operations(&[bytes, &[0xe4, 0xe7][..]].concat()), [*due, End], "{bytes:x?}");
    }
    let all: Vec<u8> = codes.iter().flat_map(|(bytes, _)| bytes.iter().copied()).collect();
    assert_eq!(operations(&all), codes.iter().map(|(_, due)| *due).collect::<Vec<_>>());
}

#[track_caller]
fn refused(bytes: &[u8], refusal: Refusal, number: u32, message: &str) {
    common::refused(decoded(bytes), refusal, number, message);
}

#[test]
fn first_specimen() {
    let book = include_bytes!("../../../specimens/arm64.book");
    let words: Vec<u32> = book.chunks(4).map(|word| u32::from_le_bytes(word.try_into().unwrap())).collect();
    let (from, length) = (words[2] as usize, words[3] as usize);
    let entry = decoded(&FIRST).unwrap();
    assert_eq!(entry.write(&[]).unwrap(), words[from..from + length]);
    let text = translate(&Book::Arm64(vec![entry]).words().unwrap(), NO_LIMIT).unwrap();
    let lines = include_str!("../../../specimens/arm64.lines");
    assert_eq!(text.lines().collect::<Vec<_>>(), lines.lines().take(5).collect::<Vec<_>>());
    let other = decode_arm64(&[], 1, u32::MAX).unwrap();
    assert_eq!(other, Arm64 { address: 1, size: u32::MAX, operations: vec![] });
}

#[test]
fn allocations() {
    become_each(&[
        (&[0x00], Allocate(0)),
        (&[0x1f], Allocate(0x1f0)),
        (&[0xc0, 0x01], Allocate(0x10)),
        (&[0xc7, 0xff], Allocate(0x7ff0)),
        (&[0xe0, 1, 2, 3], Allocate(0x10_2030)),
        (&[0xe0, 0xff, 0xff, 0xff], Allocate(0xfff_fff0)),
    ]);
}

#[test]
fn general_registers() {
    become_each(&[
        (&[0x20], PairPre(Slot::x(19, 0))),
        (&[0x3f], PairPre(Slot::x(19, 248))),
        (&[0x41], Pair(Slot::x(29, 8))),
        (&[0x7f], Pair(Slot::x(29, 504))),
        (&[0x80], PairPre(Slot::x(29, 8))),
        (&[0xbf], PairPre(Slot::x(29, 512))),
        (&[0xc8, 0x01], Pair(Slot::x(19, 8))),
        (&[0xcb, 0xff], Pair(Slot::x(34, 504))),
        (&[0xcc, 0x40], PairPre(Slot::x(20, 8))),
        (&[0xcf, 0xff], PairPre(Slot::x(34, 512))),
        (&[0xd1, 0x42], Save(Slot::x(24, 16))),
        (&[0xd2, 0xc2], Save(Slot::x(30, 16))),
        (&[0xd5, 0x60], SavePre(Slot::x(30, 8))),
        (&[0xd4, 0x3f], SavePre(Slot::x(20, 256))),
        (&[0xd6, 0x41], LrPair { register: 21, offset: 8 }),
        (&[0xd7, 0xff], LrPair { register: 33, offset: 504 }),
        (&[0xe6], SaveNext),
    ]);
}

#[test]
fn vector_registers() {
    become_each(&[
        (&[0xd8, 0x01], Pair(Slot::d(8, 8))),
        (&[0xd9, 0xff], Pair(Slot::d(15, 504))),
        (&[0xda, 0x40], PairPre(Slot::d(9, 8))),
        (&[0xdb, 0xff], PairPre(Slot::d(15, 512))),
        (&[0xdc, 0x02], Save(Slot::d(8, 16))),
        (&[0xdd, 0xff], Save(Slot::d(15, 504))),
        (&[0xde, 0x00], SavePre(Slot::d(8, 8))),
        (&[0xde, 0xff], SavePre(Slot::d(15, 256))),
    ]);
}

/// `save_any_reg` with each form and letter: register 9, field 3.
#[test]
fn any_register() {
    for (letter, form) in [(Letter::X, 0x00), (Letter::D, 0x40), (Letter::Q, 0x80)] {
        let slot = |offset| Slot { letter, register: 9, offset };
        let single = if letter == Letter::Q { 48 } else { 24 };
        become_each(&[
            (&[0xe7, 0x09, form | 3], Save(slot(single))),
            (&[0xe7, 0x29, form | 3], SavePre(slot(64))),
            (&[0xe7, 0x49, form | 3], Pair(slot(48))),
            (&[0xe7, 0x69, form | 3], PairPre(slot(64))),
        ]);
    }
    become_each(&[(&[0xe7, 0x1f, 0x3f], Save(Slot::x(31, 504))), (&[0xe7, 0x7f, 0xbf], PairPre(Slot::q(31, 1024)))]);
}

/// Codes with a name that a book has no operation for.
#[test]
fn others() {
    become_each(&[
        (&[0xdf, 0x04], Other),
        (&[0xe1], Other),
        (&[0xe2, 0x04], Other),
        (&[0xe3], Other),
        (&[0xfc], Other),
        (&[0xe7, 0x00, 0xc0], Other),
        (&[0xe7, 0x6f, 0xff], Other),
        (&[0xe7, 0x14, 0xc0], Other),
        (&[0xe7, 0x7f, 0xff], Other),
    ]);
}

/// What stands behind an end, and behind a code that is reserved or of a custom stack, is not read.
#[test]
fn ends() {
    let ends = |code: &[u8], due| {
        let bytes = [&[0x04][..], code, &[0x04, 0xe0]].concat();
        assert_eq!(operations(&bytes), [Allocate(64), due], "{code:x?}");
    };
    ends(&[0xe4], End);
    ends(&[0xe5], End);
    for code in (0xe8..=0xf7).chain(0xfd..=0xff) {
        ends(&[code], Undecodable);
    }
    for (code, length) in [(0xf8, 2), (0xf9, 3), (0xfa, 4), (0xfb, 5)] {
        ends(&[code, 0, 0, 0, 0][..length], Undecodable);
    }
    for code in [[0xe7, 0x80, 0x00], [0xe7, 0xff, 0xff], [0xe7, 0x10, 0xc0], [0xe7, 0x73, 0xff]] {
        ends(&code, Undecodable);
    }
    // Such an entry is skipped.
    let books = [&[0x04, 0xe8][..], &FIRST].map(|bytes| decoded(bytes).unwrap());
    let text = translate(&Book::Arm64(books.to_vec()).words().unwrap(), NO_LIMIT).unwrap();
    assert_eq!((text.entries(), text.lines().count()), (2, 5));
}

#[test]
fn cut_codes() {
    let message = "the bytes end inside a code";
    let longer = [(0xc0, 2), (0xcf, 2), (0xd0, 2), (0xde, 2), (0xdf, 2), (0xe0, 4), (0xe2, 2), (0xe7, 3)];
    for (code, length) in longer.into_iter().chain([(0xf8, 2), (0xf9, 3), (0xfa, 4), (0xfb, 5)]) {
        let bytes = [code, 0x80, 0, 0, 0];
        for there in 1..length {
            refused(&bytes[..there], Refusal::CodeShort, 12, message);
            refused(&[&FIRST[..7], &bytes[..there]].concat(), Refusal::CodeShort, 12, message);
            assert!(decoded(&[&FIRST, &bytes[..there]].concat()).is_ok(), "behind an end");
        }
        assert!(decoded(&bytes[..length]).is_ok(), "{code:x}");
    }
}

#[test]
fn largest_body() {
    let message = "there are more than 1,024 operations";
    let codes = |count: usize, behind: &[u8]| [&vec![0xe6; count][..], behind].concat();
    let entry = decoded(&codes(1024, &[])).unwrap();
    assert_eq!(entry.operations, [SaveNext; 1024]);
    assert_eq!(entry.write(&[]).unwrap().len(), MOST_ARM64_BODY);
    assert_eq!(operations(&codes(1023, &[0xe5, 0xe6])).len(), 1024);
    refused(&codes(1024, &[0xe4]), Refusal::Layout, 4, message);
    refused(&codes(5000, &[]), Refusal::Layout, 4, message);
    // The whole list is looked at before they are counted.
    refused(&codes(1024, &[0xe7]), Refusal::CodeShort, 12, "the bytes end inside a code");
    refused(&codes(1024, &[0xe4, 0xe7]), Refusal::Layout, 4, message);
}

/// Any bytes are decoded or refused by 4 or 12: the room is never too short.
#[test]
fn any_bytes() {
    let mut seed = 1u32;
    let mut met = [0; 13];
    for round in 0..20_000 {
        let mut bytes = Vec::new();
        // One byte in eight would end the list.
        let most = if round % 40 == 0 { 1100 } else { round % 70 };
        for _ in 0..most {
            seed = seed.wrapping_mul(1_664_525).wrapping_add(1_013_904_223);
            let byte = (seed >> 24) as u8;
            bytes.push(if most == 1100 { byte & 0x3f } else { byte });
        }
        met[decoded(&bytes).map_or_else(|undecoded| undecoded.number() as usize, |_| 0)] += 1;
    }
    let others: i32 = [0, 4, 12].iter().map(|&number: &usize| met[number]).sum();
    assert!(met[0] > 100 && met[4] == 500 && met[12] > 100 && others == 20_000, "{met:?}");
}
