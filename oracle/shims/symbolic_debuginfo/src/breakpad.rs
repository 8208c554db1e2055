//! Breakpad symbol files; never made here.

use std::marker::PhantomData;

crate::error_type!(BreakpadError);

pub struct BreakpadObject<'d>(PhantomData<&'d ()>);

impl<'d> BreakpadObject<'d> {
    pub fn stack_records(&self) -> std::vec::IntoIter<Result<BreakpadStackRecord<'d>, BreakpadError>> {
        Vec::new().into_iter()
    }
}

pub enum BreakpadStackRecord<'d> {
    Cfi(CfiRecord<'d>),
    Win(WinRecord<'d>),
}

pub struct CfiRecord<'d> {
    pub start: u64,
    pub size: u64,
    pub init_rules: &'d str,
}

impl<'d> CfiRecord<'d> {
    pub fn deltas(&self) -> std::vec::IntoIter<Result<CfiDelta<'d>, BreakpadError>> {
        Vec::new().into_iter()
    }
}

pub struct CfiDelta<'d> {
    pub address: u64,
    pub rules: &'d str,
}

#[derive(Clone, Copy)]
pub enum WinType {
    FrameData = 4,
}

pub struct WinRecord<'d> {
    pub ty: WinType,
    pub code_start: u32,
    pub code_size: u32,
    pub prolog_size: u16,
    pub epilog_size: u16,
    pub params_size: u32,
    pub saved_regs_size: u16,
    pub locals_size: u32,
    pub max_stack_size: u32,
    pub uses_base_pointer: bool,
    pub program_string: Option<&'d str>,
}
