//! PE exception data. The functions are handed out one by one; a cursor says whose unwind infos are asked for.

use crate::ObjectLike;
use std::cell::Cell;
use std::marker::PhantomData;
use symbolic_common::Arch;

crate::error_type!(PeError);

pub struct PeObject<'d> {
    pub arch: Arch,
    pub exception_data: ExceptionData,
    pub lifetime: PhantomData<&'d ()>,
}

impl PeObject<'_> {
    pub fn sections(&self) -> &[()] {
        &[]
    }

    pub fn exception_data(&self) -> Option<&ExceptionData> {
        Some(&self.exception_data)
    }

    pub fn debug_file_name(&self) -> Option<&'static str> {
        None
    }
}

impl<'d: 'o, 'o> ObjectLike<'d, 'o> for PeObject<'d> {
    fn arch(&self) -> Arch {
        self.arch
    }

    fn load_address(&self) -> u64 {
        0
    }
}

#[derive(Clone, Copy, PartialEq)]
pub struct RuntimeFunction {
    pub begin_address: u32,
    pub end_address: u32,
    pub unwind_info_address: u32,
}

/// One function with its chain of infos.
pub struct Function {
    pub function: RuntimeFunction,
    pub chain: Vec<Info>,
}

/// One info of a chain, as the harness fills it in.
pub struct Info {
    pub frame_register: Register,
    pub frame_register_offset: u32,
    /// In stored order; none is an undecodable one.
    pub codes: Vec<Option<UnwindOperation>>,
}

/// One ARM64 function with its codes.
pub struct Arm64Function {
    pub function: Arm64RuntimeFunction,
    pub codes: Vec<Option<Arm64UnwindCode>>,
}

#[derive(Default)]
pub struct ExceptionData {
    pub functions: Vec<Function>,
    pub arm64_functions: Vec<Arm64Function>,
    /// The function handed out last, and how many of its infos have been asked for.
    pub cursor: Cell<(usize, usize)>,
}

impl ExceptionData {
    pub fn functions(&self) -> impl Iterator<Item = Result<RuntimeFunction, PeError>> + '_ {
        self.functions.iter().enumerate().map(|(i, f)| {
            self.cursor.set((i, 0));
            Ok(f.function)
        })
    }

    pub fn get_unwind_info(&self, next: RuntimeFunction, _sections: &[()]) -> Result<UnwindInfo<'_>, PeError> {
        let (i, asked) = self.cursor.get();
        let function = &self.functions[i];
        assert!(asked > 0 || next == function.function);
        self.cursor.set((i, asked + 1));
        let info = &function.chain[asked];
        Ok(UnwindInfo {
            frame_register: info.frame_register,
            frame_register_offset: info.frame_register_offset,
            chained_info: (asked + 1 < function.chain.len()).then_some(function.function),
            codes: &info.codes,
        })
    }

    pub fn functions_arm64(&self) -> impl Iterator<Item = Result<Arm64RuntimeFunction, PeError>> + '_ {
        self.arm64_functions.iter().enumerate().map(|(i, f)| {
            self.cursor.set((i, 0));
            Ok(f.function)
        })
    }

    pub fn get_unwind_info_arm64(
        &self,
        function: Arm64RuntimeFunction,
        _sections: &[()],
    ) -> Option<Result<Arm64UnwindInfo<'_>, PeError>> {
        let found = &self.arm64_functions[self.cursor.get().0];
        assert!(function == found.function);
        Some(Ok(Arm64UnwindInfo(&found.codes)))
    }
}

/// A general register, in Microsoft's numbering.
#[derive(Clone, Copy)]
pub struct Register(pub u8);

impl Register {
    pub fn name(self) -> &'static str {
        match self.0 {
            0 => "$rax",
            1 => "$rcx",
            2 => "$rdx",
            3 => "$rbx",
            4 => "$rsp",
            5 => "$rbp",
            6 => "$rsi",
            7 => "$rdi",
            8 => "$r8",
            9 => "$r9",
            10 => "$r10",
            11 => "$r11",
            12 => "$r12",
            13 => "$r13",
            14 => "$r14",
            15 => "$r15",
            _ => "",
        }
    }
}

#[derive(Clone, Copy)]
pub enum StackFrameOffset {
    RSP(u32),
    FP(u32),
}

#[derive(Clone, Copy)]
pub enum UnwindOperation {
    PushNonVolatile(Register),
    Alloc(u32),
    SetFPRegister,
    SaveNonVolatile(Register, StackFrameOffset),
    SaveXMM(Register, StackFrameOffset),
    Epilog,
    PushMachineFrame(bool),
    Noop,
}

#[derive(Clone, Copy)]
pub struct UnwindCode {
    pub operation: UnwindOperation,
}

pub struct UnwindInfo<'a> {
    pub frame_register: Register,
    pub frame_register_offset: u32,
    pub chained_info: Option<RuntimeFunction>,
    codes: &'a [Option<UnwindOperation>],
}

impl UnwindInfo<'_> {
    pub fn unwind_codes(&self) -> impl Iterator<Item = Result<UnwindCode, PeError>> + '_ {
        self.codes
            .iter()
            .map(|c| c.map(|operation| UnwindCode { operation }).ok_or(PeError))
    }
}

#[derive(Clone, Copy, PartialEq)]
pub struct Arm64RuntimeFunction {
    pub begin_address: u32,
    pub length: u32,
}

impl Arm64RuntimeFunction {
    pub fn function_length(&self) -> u32 {
        self.length
    }
}

pub struct Arm64UnwindInfo<'a>(&'a [Option<Arm64UnwindCode>]);

impl<'a> Arm64UnwindInfo<'a> {
    pub fn unwind_codes(
        &self,
        _offset: usize,
    ) -> Result<impl Iterator<Item = Result<Arm64Code, PeError>> + 'a, PeError> {
        let codes = self.0;
        Ok(codes.iter().map(|c| c.map(|code| Arm64Code { code }).ok_or(PeError)))
    }
}

#[derive(Clone, Copy)]
pub struct Arm64Code {
    pub code: Arm64UnwindCode,
}

#[derive(Clone, Copy)]
pub enum Arm64UnwindCode {
    AllocSmall { size_bytes: u32 },
    AllocMedium { size_bytes: u32 },
    AllocLarge { size_bytes: u32 },
    SaveR19R20Preindexed { offset_bytes: u32 },
    SaveFpLr { offset_bytes: u32 },
    SaveFpLrPreindexed { offset_bytes: u32 },
    SaveReg { reg: u8, offset_bytes: u32 },
    SaveRegPreindexed { reg: u8, offset_bytes: u32 },
    SaveRegPair { first_reg: u8, offset_bytes: u32 },
    SaveRegPairPreindexed { first_reg: u8, offset_bytes: u32 },
    SaveLrPair { first_reg: u8, offset_bytes: u32 },
    SaveFReg { reg: u8, offset_bytes: u32 },
    SaveFRegPreindexed { reg: u8, offset_bytes: u32 },
    SaveFRegPair { first_reg: u8, offset_bytes: u32 },
    SaveFRegPairPreindexed { first_reg: u8, offset_bytes: u32 },
    SaveAnyReg { kind: u32, pair: bool, preindexed: bool, reg: u8, offset_bytes: u32 },
    SaveNext,
    SetFp,
    AddFp { offset_bytes: u32 },
    Nop,
    End,
    EndC,
}
