//! x64 bodies as PE exception data.

use std::marker::PhantomData;
use symbolic_common::Arch;
use symbolic_debuginfo::pe::{
    ExceptionData, Function, Info, PeObject, Register, RuntimeFunction, StackFrameOffset, UnwindOperation,
};
use symbolic_debuginfo::Object;

pub fn object(bodies: &[&[u32]]) -> Object<'static> {
    let exception_data = ExceptionData {
        functions: bodies.iter().map(|body| function(body)).collect(),
        ..Default::default()
    };
    Object::Pe(PeObject { arch: Arch::Amd64, exception_data, lifetime: PhantomData })
}

fn function(body: &[u32]) -> Function {
    let function = RuntimeFunction {
        begin_address: body[0],
        end_address: body[1],
        unwind_info_address: body[2],
    };
    let mut rest = &body[4..];
    let mut chain = Vec::new();
    for _ in 0..body[3] {
        let (operations, after) = rest[3..].split_at(3 * rest[2] as usize);
        chain.push(Info {
            frame_register: Register(rest[0] as u8),
            frame_register_offset: rest[1],
            codes: operations.chunks(3).map(operation).collect(),
        });
        rest = after;
    }
    Function { function, chain }
}

fn operation(words: &[u32]) -> Option<UnwindOperation> {
    let (register, value) = (Register(words[1] as u8), words[2]);
    Some(match words[0] {
        1 => UnwindOperation::PushNonVolatile(register),
        2 => UnwindOperation::Alloc(value),
        3 => UnwindOperation::SaveNonVolatile(register, StackFrameOffset::RSP(value)),
        4 => UnwindOperation::SaveNonVolatile(register, StackFrameOffset::FP(value)),
        5 => UnwindOperation::SetFPRegister,
        6 => UnwindOperation::PushMachineFrame(value == 1),
        7 => other(register, value),
        _ => return None,
    })
}

/// The operations that the Rust passes over.
fn other(register: Register, value: u32) -> UnwindOperation {
    match value % 4 {
        0 => UnwindOperation::SaveXMM(register, StackFrameOffset::RSP(value)),
        1 => UnwindOperation::SaveXMM(register, StackFrameOffset::FP(value)),
        2 => UnwindOperation::Epilog,
        _ => UnwindOperation::Noop,
    }
}
