//! Unwind bytes into entries of x64 books, and into lines.

mod common;

use common::{first, function, info, x64, FIRST_LINE};
use stacklines::book::x64::{Info, Operation, Register, X64};
use stacklines::book::{Book, Entry};
use stacklines::{decode_x64, translate, Refusal, Undecoded, MOST_X64_BODY, NO_LIMIT};

/// The bytes of `specimens/first.book`: push rbx; sub rsp, 20h.
const FIRST: [u8; 8] = [1, 5, 2, 0, 5, 0x32, 1, 0x30];

fn decoded(bytes: &[u8]) -> Result<X64, Undecoded> {
    decode_x64(bytes, 0x1000, 0x1040, 0x5000)
}

/// A part with this byte for the frame register and these slots.
fn part(frame: u8, slots: &[[u8; 2]]) -> Vec<u8> {
    let header = [1, 0, slots.len() as u8, frame];
    header.into_iter().chain(slots.iter().flatten().copied()).collect()
}

/// The operations of one part without a frame register.
fn operations(slots: &[[u8; 2]]) -> Vec<Operation> {
    let entry = decoded(&part(0, slots)).unwrap();
    assert_eq!(entry, function(vec![info(entry.infos[0].operations.clone())]));
    entry.infos[0].operations.clone()
}

#[track_caller]
fn refused(bytes: &[u8], refusal: Refusal, number: u32, message: &str) {
    common::refused(decoded(bytes), refusal, number, message);
}

#[test]
fn first_specimen() {
    assert_eq!(decoded(&FIRST), Ok(first()));
    assert_eq!(translate(&x64(vec![decoded(&FIRST).unwrap()]), NO_LIMIT).unwrap().as_str(), FIRST_LINE);
    let other = decode_x64(&FIRST, 1, u32::MAX, 3).unwrap();
    assert_eq!((other.begin, other.end, other.info_address), (1, u32::MAX, 3));
}

#[test]
fn pushes_and_allocations() {
    for number in 0..16 {
        let register = Register::from_number(number).unwrap();
        let info = (number as u8) << 4;
        assert_eq!(operations(&[[9, info]]), [Operation::Push(register)]);
        assert_eq!(operations(&[[9, info | 2]]), [Operation::Allocate(8 * number + 8)]);
        assert_eq!(operations(&[[9, info | 3]]), [Operation::SetFrame]);
    }
    assert_eq!(operations(&[[9, 0x01], [0xff, 0xff]]), [Operation::Allocate(0xffff * 8)]);
    assert_eq!(operations(&[[9, 0x11], [0x78, 0x56], [0x34, 0xf2]]), [Operation::Allocate(0xf234_5678)]);
}

#[test]
fn saves() {
    let slots = [[9, 0x64], [3, 1], [9, 0xf5], [4, 3], [2, 1]];
    let (near, far) = ((Register::Rsi, 0x0103 * 8), (Register::R15, 0x0102_0304));
    let at_rsp = [near, far].map(|(register, offset)| Operation::SaveAtRsp { register, offset });
    let at_frame = [near, far].map(|(register, offset)| Operation::SaveAtFrame { register, offset });
    assert_eq!(operations(&slots), at_rsp);
    let framed = |frame| decoded(&part(frame, &slots)).unwrap().infos.remove(0);
    let due = Info { frame_register: Register::R13, frame_offset: 240, operations: at_frame.to_vec() };
    assert_eq!(framed(0xfd), due);
    // The offset is kept where there is no frame register.
    assert_eq!(framed(0xf0), Info { frame_offset: 240, ..info(at_rsp.to_vec()) });
}

#[test]
fn xmm_registers_and_machine_frames() {
    assert_eq!(operations(&[[9, 0x68], [1, 0], [9, 0xf9], [1, 0], [0, 0]]), [Operation::Other; 2]);
    assert_eq!(operations(&[[9, 0x0a]]), [Operation::MachineFrame { error_code: false }]);
    assert_eq!(operations(&[[9, 0x1a]]), [Operation::MachineFrame { error_code: true }]);
}

#[test]
fn undecodable_operations() {
    let codes = [0x06, 0x17, 0x0b, 0x0c, 0x0d, 0x0e, 0x0f, 0x21, 0xf1, 0x2a, 0xfa];
    for code in codes {
        let due = [Operation::Push(Register::Rbx), Operation::Undecodable];
        assert_eq!(operations(&[[9, 0x30], [9, code], [9, 0x30], [9, 0x30]]), due, "{code:#x}");
    }
    for (code, slots) in [(0x01, 2), (0x11, 3), (0x04, 2), (0x05, 3), (0x08, 2), (0x09, 3)] {
        for there in 1..slots {
            assert_eq!(operations(&vec![[9, code]; there]), [Operation::Undecodable], "{code:#x}");
        }
        assert_ne!(operations(&vec![[9, code]; slots]), [Operation::Undecodable], "{code:#x}");
    }
    // Such an entry is skipped, and the part behind it stands where its slots end.
    let bytes = [part(0, &[[9, 0x06], [9, 0x30]]), FIRST.to_vec()].concat();
    let entry = decoded(&bytes).unwrap();
    assert_eq!(entry.infos, [info(vec![Operation::Undecodable]), first().infos.remove(0)]);
    assert_eq!(translate(&x64(vec![entry, first()]), NO_LIMIT).unwrap().as_str(), FIRST_LINE);
}

#[test]
fn chains() {
    let chain = |count: usize| [1, 0, 0, 0].repeat(count);
    for count in [1, 2, 32] {
        assert_eq!(decoded(&chain(count)), Ok(function(vec![Info::default(); count])));
    }
    let message = "there is no part, or more than 32";
    refused(&[], Refusal::Layout, 4, message);
    refused(&chain(33), Refusal::Layout, 4, message);
    // Each part is looked at before they are counted.
    refused(&[chain(33), vec![0]].concat(), Refusal::UnwindVersion, 10, "the version of a part is not 1");
    assert_eq!(decoded(&[chain(33), vec![1]].concat()).unwrap_err().number(), 11);
}

#[test]
fn versions() {
    for byte in 0..=u8::MAX {
        let mut bytes = FIRST;
        bytes[0] = byte;
        if byte & 7 == 1 {
            assert_eq!(decoded(&bytes), Ok(first()), "flags are not read");
            continue;
        }
        let second = [&FIRST[..], &bytes[..1]].concat();
        for bytes in [&bytes[..], &bytes[..1], &second] {
            refused(bytes, Refusal::UnwindVersion, 10, "the version of a part is not 1");
        }
    }
}

#[test]
fn cut_bytes() {
    let message = "the bytes end before the four header bytes or the counted slots of a part";
    for length in 1..FIRST.len() {
        refused(&FIRST[..length], Refusal::UnwindShort, 11, message);
        refused(&[&FIRST, &FIRST[..length]].concat(), Refusal::UnwindShort, 11, message);
    }
}

#[test]
fn largest_body() {
    let bytes = part(0, &[[9, 0x30]; 255]).repeat(32);
    let entry = decoded(&bytes).unwrap();
    assert_eq!(entry, function(vec![info(vec![Operation::Push(Register::Rbx); 255]); 32]));
    assert_eq!(entry.write(&[]).unwrap().len(), MOST_X64_BODY);
    let fault = Book::X64(vec![entry]).words().unwrap_err();
    assert_eq!((fault.number(), fault.what()), (3, "the book has more than 16,384 words"));
}

#[test]
fn numbers_out_of_reach() {
    let entry = decoded(&part(0, &[[9, 0x11], [0, 0], [0, 0x80]])).unwrap();
    assert_eq!(entry, function(vec![info(vec![Operation::Allocate(0x8000_0000)])]));
    let refused = translate(&x64(vec![first(), entry]), NO_LIMIT).unwrap_err();
    assert_eq!((refused.refusal(), refused.entry()), (Refusal::Reach, Some(1)));
}

/// Any bytes are decoded or refused by 4, 10 or 11: the room is never too short.
#[test]
fn any_bytes() {
    let mut seed = 1u32;
    let mut met = [0; 12];
    for round in 0..20_000 {
        let mut bytes = Vec::new();
        for _ in 0..round % 70 {
            seed = seed.wrapping_mul(1_664_525).wrapping_add(1_013_904_223);
            bytes.push((seed >> 24) as u8);
        }
        // Most first bytes would be refused, and most counts too long.
        if let [first, _, count, ..] = &mut bytes[..] {
            *first = *first & 0xf8 | 1;
            *count %= 40;
        }
        met[decoded(&bytes).map_or_else(|undecoded| undecoded.number() as usize, |_| 0)] += 1;
    }
    let others: i32 = [0, 4, 10, 11].iter().map(|&number: &usize| met[number]).sum();
    assert!(met[0] > 100 && others == 20_000, "{met:?}");
}
