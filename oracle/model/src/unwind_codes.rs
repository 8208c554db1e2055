//! The unwind codes of an ARM64 function, from the bytes of its .xdata record to an ARM64 body: Microsoft's ARM64 page, as document 02 takes it. A
//! second reading of its rules: every code is a pattern of bits, as the page prints it. The bytes are cut into codes, each code becomes an operation,
//! and only then is their number looked at.

use crate::decoder::Decoder;
use crate::rng::Rng;
use crate::{due, gen, Tally, ARM64};

const MOST_OPERATIONS: usize = 1024;

// Kinds.
const ALLOCATE: u32 = 1;
const SAVE: u32 = 2;
const SAVE_PRE: u32 = 3;
const PAIR: u32 = 4;
const PAIR_PRE: u32 = 5;
const REGISTER_AND_LR: u32 = 6;
const NEXT: [u32; 4] = [7, 0, 0, 0];
const OTHER: [u32; 4] = [8, 0, 0, 0];
const END: [u32; 4] = [9, 0, 0, 0];
const UNDECODABLE: [u32; 4] = [10, 0, 0, 0];

// Letters.
const X: u32 = 0;
const D: u32 = 1;
const Q: u32 = 2;

/// Kind, letter, register and value.
type Operation = [u32; 4];

/// A code of the page.
pub struct Code {
    name: &'static str,
    /// Its bytes; bits of one letter are a number, the highest first.
    pub bits: &'static str,
    /// The operation, from the numbers.
    becomes: fn(&dyn Fn(char) -> u32) -> Operation,
    /// The names of the places where it can be cut: behind one byte, two and so on.
    cut: [&'static str; 4],
}

macro_rules! code {
    ($name:literal, $bits:literal, $becomes:expr) => {
        code!($name, $name, $bits, $becomes)
    };
    // Cut codes that are told apart by their later bytes have one name.
    ($cut:literal, $name:literal, $bits:literal, $becomes:expr) => {
        Code {
            name: concat!("decode ", $name),
            bits: $bits,
            becomes: $becomes,
            cut: [
                concat!("decode cut: ", $cut, ", 1 byte"),
                concat!("decode cut: ", $cut, ", 2 bytes"),
                concat!("decode cut: ", $cut, ", 3 bytes"),
                concat!("decode cut: ", $cut, ", 4 bytes"),
            ],
        }
    };
}

/// Any bytes begin with one of these, or are cut in one.
pub const CODES: &[Code] = &[
    code!("alloc_s", "000xxxxx", |n| [ALLOCATE, 0, 0, n('x') * 16]),
    code!("save_r19r20_x", "001zzzzz", |n| [PAIR_PRE, X, 19, n('z') * 8]),
    code!("save_fplr", "01zzzzzz", |n| [PAIR, X, 29, n('z') * 8]),
    code!("save_fplr_x", "10zzzzzz", |n| [PAIR_PRE, X, 29, (n('z') + 1) * 8]),
    code!("alloc_m", "11000xxx xxxxxxxx", |n| [ALLOCATE, 0, 0, n('x') * 16]),
    code!("save_regp", "110010xx xxzzzzzz", |n| [PAIR, X, 19 + n('x'), n('z') * 8]),
    code!("save_regp_x", "110011xx xxzzzzzz", |n| [PAIR_PRE, X, 19 + n('x'), (n('z') + 1) * 8]),
    code!("save_reg", "110100xx xxzzzzzz", |n| [SAVE, X, 19 + n('x'), n('z') * 8]),
    code!("save_reg_x", "1101010x xxxzzzzz", |n| [SAVE_PRE, X, 19 + n('x'), (n('z') + 1) * 8]),
    code!("save_lrpair", "1101011x xxzzzzzz", |n| [REGISTER_AND_LR, X, 19 + 2 * n('x'), n('z') * 8]),
    code!("save_fregp", "1101100x xxzzzzzz", |n| [PAIR, D, 8 + n('x'), n('z') * 8]),
    code!("save_fregp_x", "1101101x xxzzzzzz", |n| [PAIR_PRE, D, 8 + n('x'), (n('z') + 1) * 8]),
    code!("save_freg", "1101110x xxzzzzzz", |n| [SAVE, D, 8 + n('x'), n('z') * 8]),
    code!("save_freg_x", "11011110 xxxzzzzz", |n| [SAVE_PRE, D, 8 + n('x'), (n('z') + 1) * 8]),
    code!("alloc_z", "11011111 zzzzzzzz", |_| OTHER),
    code!("alloc_l", "11100000 xxxxxxxx xxxxxxxx xxxxxxxx", |n| [ALLOCATE, 0, 0, n('x') * 16]),
    code!("set_fp", "11100001", |_| OTHER),
    code!("add_fp", "11100010 xxxxxxxx", |_| OTHER),
    code!("nop", "11100011", |_| OTHER),
    code!("end", "11100100", |_| END),
    code!("end_c", "11100101", |_| END),
    code!("save_next", "11100110", |_| NEXT),
    code!("E7", "save_any_reg x", "11100111 000rrrrr 00oooooo", |n| [SAVE, X, n('r'), n('o') * 8]),
    code!("E7", "save_any_reg d", "11100111 000rrrrr 01oooooo", |n| [SAVE, D, n('r'), n('o') * 8]),
    code!("E7", "save_any_reg q", "11100111 000rrrrr 10oooooo", |n| [SAVE, Q, n('r'), n('o') * 16]),
    code!("E7", "save_any_reg x pre", "11100111 001rrrrr 00oooooo", |n| [SAVE_PRE, X, n('r'), (n('o') + 1) * 16]),
    code!("E7", "save_any_reg d pre", "11100111 001rrrrr 01oooooo", |n| [SAVE_PRE, D, n('r'), (n('o') + 1) * 16]),
    code!("E7", "save_any_reg q pre", "11100111 001rrrrr 10oooooo", |n| [SAVE_PRE, Q, n('r'), (n('o') + 1) * 16]),
    code!("E7", "save_any_reg x pair", "11100111 010rrrrr 00oooooo", |n| [PAIR, X, n('r'), n('o') * 16]),
    code!("E7", "save_any_reg d pair", "11100111 010rrrrr 01oooooo", |n| [PAIR, D, n('r'), n('o') * 16]),
    code!("E7", "save_any_reg q pair", "11100111 010rrrrr 10oooooo", |n| [PAIR, Q, n('r'), n('o') * 16]),
    code!("E7", "save_any_reg x pair pre", "11100111 011rrrrr 00oooooo", |n| [PAIR_PRE, X, n('r'), (n('o') + 1) * 16]),
    code!("E7", "save_any_reg d pair pre", "11100111 011rrrrr 01oooooo", |n| [PAIR_PRE, D, n('r'), (n('o') + 1) * 16]),
    code!("E7", "save_any_reg q pair pre", "11100111 011rrrrr 10oooooo", |n| [PAIR_PRE, Q, n('r'), (n('o') + 1) * 16]),
    code!("E7", "save_zreg", "11100111 0oo0rrrr 11oooooo", |_| OTHER),
    code!("E7", "reserved save_preg, P0 to P3", "11100111 0oo100rr 11oooooo", |_| UNDECODABLE),
    code!("E7", "save_preg, P4 to P7", "11100111 0oo101rr 11oooooo", |_| OTHER),
    code!("E7", "save_preg, P8 to P15", "11100111 0oo11rrr 11oooooo", |_| OTHER),
    code!("E7", "reserved E7, bit 7", "11100111 1....... ........", |_| UNDECODABLE),
    code!("custom stack E8", "11101000", |_| UNDECODABLE),
    code!("custom stack E9", "11101001", |_| UNDECODABLE),
    code!("custom stack EA", "11101010", |_| UNDECODABLE),
    code!("custom stack EB", "11101011", |_| UNDECODABLE),
    code!("custom stack EC", "11101100", |_| UNDECODABLE),
    code!("reserved ED", "11101101", |_| UNDECODABLE),
    code!("reserved EE and EF", "1110111.", |_| UNDECODABLE),
    code!("reserved F0 to F7", "11110...", |_| UNDECODABLE),
    code!("F8", "reserved F8, 2 bytes", "11111000 ........", |_| UNDECODABLE),
    code!("F9", "reserved F9, 3 bytes", "11111001 ........ ........", |_| UNDECODABLE),
    code!("FA", "reserved FA, 4 bytes", "11111010 ........ ........ ........", |_| UNDECODABLE),
    code!("FB", "reserved FB, 5 bytes", "11111011 ........ ........ ........ ........", |_| UNDECODABLE),
    code!("pac_sign_lr", "11111100", |_| OTHER),
    code!("reserved FD", "11111101", |_| UNDECODABLE),
    code!("reserved FE and FF", "1111111.", |_| UNDECODABLE),
];

impl Code {
    /// Its bytes, each as the eight signs of its bits.
    pub fn patterns(&self) -> impl Iterator<Item = &[u8]> {
        self.bits.as_bytes().chunks(9).map(|byte| &byte[..8])
    }

    pub fn length(&self) -> usize {
        self.patterns().count()
    }

    /// Whether it ends the list.
    pub fn ends(&self) -> bool {
        [END, UNDECODABLE].contains(&(self.becomes)(&|_| 0))
    }

    /// Whether bytes begin with it, or are its first ones.
    pub fn fits(&self, bytes: &[u8]) -> bool {
        self.patterns().zip(bytes).all(|(pattern, &byte)| {
            bits(byte).zip(pattern).all(|(bit, sign)| !b"01".contains(sign) || *sign == b'0' + bit)
        })
    }

    /// The number of a letter.
    fn number(&self, bytes: &[u8], letter: char) -> u32 {
        let signs = self.patterns().flatten().zip(bytes.iter().flat_map(|&byte| bits(byte)));
        signs.filter(|(sign, _)| **sign == letter as u8).fold(0, |number, (_, bit)| number << 1 | u32::from(bit))
    }
}

/// The bits of a byte, the highest first.
fn bits(byte: u8) -> impl Iterator<Item = u8> {
    (0..8).rev().map(move |place| byte >> place & 1)
}

/// The decoder.
pub struct UnwindCodes;

impl Decoder for UnwindCodes {
    type Lead = [u32; 2];
    const KIND: u32 = ARM64;
    const LONGEST: usize = 3 + 4 * MOST_OPERATIONS;
    const DUE: &'static [&'static str] = due::DECODE_ARM64;

    fn body(bytes: &[u8], lead: [u32; 2], tally: &mut Tally) -> Result<Vec<u32>, u32> {
        let (operations, behind) = list(bytes, tally)?;
        note_list(&operations, behind, tally);
        if operations.len() > MOST_OPERATIONS {
            return Err(4);
        }
        let count = operations.len() as u32;
        Ok(lead.into_iter().chain([count]).chain(operations.into_iter().flatten()).collect())
    }

    fn bytes(rng: &mut Rng) -> Vec<u8> {
        gen::unwind_codes::bytes(rng)
    }

    fn every() -> Vec<Vec<u8>> {
        gen::unwind_codes::every()
    }
}

/// The operations, to the first that ends the list or to the bytes' end, and the bytes behind them.
fn list<'a>(bytes: &'a [u8], tally: &mut Tally) -> Result<(Vec<Operation>, &'a [u8]), u32> {
    let mut operations = Vec::new();
    let mut rest = bytes;
    while let Some(code) = CODES.iter().find(|code| !rest.is_empty() && code.fits(rest)) {
        let Some((bytes, behind)) = rest.split_at_checked(code.length()) else {
            tally.count(code.cut[rest.len() - 1]);
            tally.count(cut_behind(operations.len()));
            return Err(12);
        };
        tally.note(code.name);
        operations.push((code.becomes)(&|letter| code.number(bytes, letter)));
        rest = behind;
        if code.ends() {
            break;
        }
    }
    Ok((operations, rest))
}

/// Behind how many operations a code is cut.
fn cut_behind(operations: usize) -> &'static str {
    match operations {
        0 => "decode 12 in the first code",
        1..MOST_OPERATIONS => "decode 12 in a later code",
        MOST_OPERATIONS => "decode 12 behind 1024 operations",
        _ => "decode 12 behind more operations",
    }
}

fn note_list(operations: &[Operation], behind: &[u8], tally: &mut Tally) {
    let last = operations.last();
    let ended = last == Some(&END);
    tally.note(match last {
        None => "decode no bytes",
        Some(&END) => "decode list to an end",
        Some(&UNDECODABLE) => "decode list to an undecodable code",
        Some(_) => "decode list to the bytes' end",
    });
    match (operations.len(), ended) {
        (1023, _) => tally.note("decode 1023 operations"),
        (1024, false) => tally.note("decode 1024 operations"),
        (1024, true) => tally.note("decode 1024 operations, the last an end"),
        (1025, false) => tally.count("decode 4: 1025 operations"),
        (1025, true) => tally.count("decode 4: 1025 operations, the last an end"),
        (1026.., _) => tally.count("decode 4: more operations"),
        _ => {}
    }
    if !behind.is_empty() {
        note_behind(operations.len(), behind, tally);
    }
    for operation in operations {
        note_operation(operation, tally);
    }
}

/// Bytes behind the code that ends the list, which are not read.
fn note_behind(operations: usize, behind: &[u8], tally: &mut Tally) {
    tally.note("decode bytes behind the list");
    match list(behind, &mut Tally::default()) {
        Err(_) => tally.note("decode a cut code behind the list"),
        Ok((more, _)) if operations + more.len() > MOST_OPERATIONS => {
            tally.note("decode above 1024 with those behind");
        }
        Ok(_) => {}
    }
}

fn note_operation(&[kind, letter, register, value]: &Operation, tally: &mut Tally) {
    let pair = matches!(kind, PAIR | PAIR_PRE);
    if (SAVE..=REGISTER_AND_LR).contains(&kind) && letter == X {
        match register + u32::from(pair) {
            30 if pair => tally.note("decode pair with x30"),
            31.. => tally.note("decode register past x30"),
            _ => {}
        }
    }
    match (kind, value) {
        (ALLOCATE, 0) => tally.note("decode allocation of 0"),
        (ALLOCATE, 0x0fff_fff0) => tally.note("decode allocation of 2^28 - 16"),
        (SAVE_PRE | PAIR_PRE, 0) => tally.note("decode pre-indexed by 0"),
        (SAVE_PRE | PAIR_PRE, 1024) => tally.note("decode pre-indexed by 1024"),
        _ => {}
    }
}
