//! ARM64 bodies as PE exception data. Where the Rust has several codes for one operation, each gets its turn.

use std::marker::PhantomData;
use symbolic_common::Arch;
use symbolic_debuginfo::pe::{
    Arm64Function, Arm64RuntimeFunction, Arm64UnwindCode as Code, ExceptionData, PeObject,
};
use symbolic_debuginfo::Object;

pub fn object(bodies: &[&[u32]]) -> Object<'static> {
    let exception_data = ExceptionData {
        arm64_functions: bodies.iter().map(|body| function(body)).collect(),
        ..Default::default()
    };
    Object::Pe(PeObject { arch: Arch::Arm64, exception_data, lifetime: PhantomData })
}

fn function(body: &[u32]) -> Arm64Function {
    Arm64Function {
        function: Arm64RuntimeFunction { begin_address: body[0], length: body[1] },
        codes: body[3..].chunks(4).enumerate().map(|(i, words)| code(i, words)).collect(),
    }
}

fn code(i: usize, words: &[u32]) -> Option<Code> {
    let turn = i + words[3] as usize / 8;
    let (letter, reg, offset_bytes) = (words[1], words[2] as u8, words[3]);
    let any = |pair, preindexed| Code::SaveAnyReg { kind: letter, pair, preindexed, reg, offset_bytes };
    let own = turn % 2 == 0;
    Some(match words[0] {
        1 => allocate(turn, offset_bytes),
        2 => match letter {
            0 if own => Code::SaveReg { reg, offset_bytes },
            1 if own => Code::SaveFReg { reg, offset_bytes },
            _ => any(false, false),
        },
        3 => match letter {
            0 if own => Code::SaveRegPreindexed { reg, offset_bytes },
            1 if own => Code::SaveFRegPreindexed { reg, offset_bytes },
            _ => any(false, true),
        },
        4 if own => pair(letter, reg, offset_bytes).unwrap_or(any(true, false)),
        4 => any(true, false),
        5 if own => pair_preindexed(letter, reg, offset_bytes).unwrap_or(any(true, true)),
        5 => any(true, true),
        6 => Code::SaveLrPair { first_reg: reg, offset_bytes },
        7 => Code::SaveNext,
        8 => other(turn, offset_bytes),
        9 if own => Code::End,
        9 => Code::EndC,
        _ => return None,
    })
}

fn allocate(turn: usize, size_bytes: u32) -> Code {
    match turn % 3 {
        0 => Code::AllocSmall { size_bytes },
        1 => Code::AllocMedium { size_bytes },
        _ => Code::AllocLarge { size_bytes },
    }
}

fn pair(letter: u32, first_reg: u8, offset_bytes: u32) -> Option<Code> {
    match (letter, first_reg) {
        (0, 29) => Some(Code::SaveFpLr { offset_bytes }),
        (0, _) => Some(Code::SaveRegPair { first_reg, offset_bytes }),
        (1, _) => Some(Code::SaveFRegPair { first_reg, offset_bytes }),
        _ => None,
    }
}

fn pair_preindexed(letter: u32, first_reg: u8, offset_bytes: u32) -> Option<Code> {
    match (letter, first_reg) {
        (0, 29) => Some(Code::SaveFpLrPreindexed { offset_bytes }),
        (0, 19) => Some(Code::SaveR19R20Preindexed { offset_bytes }),
        (0, _) => Some(Code::SaveRegPairPreindexed { first_reg, offset_bytes }),
        (1, _) => Some(Code::SaveFRegPairPreindexed { first_reg, offset_bytes }),
        _ => None,
    }
}

fn other(turn: usize, offset_bytes: u32) -> Code {
    match turn % 3 {
        0 => Code::Nop,
        1 => Code::SetFp,
        _ => Code::AddFp { offset_bytes },
    }
}
