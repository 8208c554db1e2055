//! Mach-O objects; never made here.

use crate::dwarf::{Dwarf, DwarfSection, Endian};
use crate::ObjectLike;
use std::marker::PhantomData;
use symbolic_common::Arch;

crate::error_type!(MachError);

pub struct MachObject<'d>(PhantomData<&'d ()>);

impl<'d> MachObject<'d> {
    pub fn compact_unwind_info(&self) -> Result<Option<CompactUnwindInfoIter<'d>>, MachError> {
        Ok(None)
    }

    pub fn symbol_map(&self) -> SymbolMap {
        SymbolMap
    }
}

impl<'d: 'o, 'o> ObjectLike<'d, 'o> for MachObject<'d> {
    fn arch(&self) -> Arch {
        Arch::Unknown
    }

    fn load_address(&self) -> u64 {
        0
    }
}

impl<'d> Dwarf<'d> for MachObject<'d> {
    fn endianity(&self) -> Endian {
        Endian::Little
    }

    fn section(&self, _name: &str) -> Option<DwarfSection<'d>> {
        None
    }
}

pub struct SymbolMap;

impl SymbolMap {
    pub fn lookup(&self, _address: u64) -> Option<Symbol> {
        None
    }
}

#[derive(Clone, Copy)]
pub struct Symbol;

impl Symbol {
    pub fn name(self) -> Option<&'static str> {
        None
    }
}

pub struct CompactUnwindInfoIter<'d>(PhantomData<&'d ()>);

impl CompactUnwindInfoIter<'_> {
    #[allow(clippy::should_implement_trait)]
    pub fn next(&mut self) -> Result<Option<CompactUnwindEntry>, MachError> {
        Ok(None)
    }
}

pub struct CompactUnwindEntry {
    pub len: u32,
    pub instruction_address: u32,
}

impl CompactUnwindEntry {
    pub fn instructions(&self, _iter: &CompactUnwindInfoIter<'_>) -> CompactUnwindOp {
        CompactUnwindOp::None
    }
}

pub enum CompactUnwindOp {
    None,
    UseDwarfFde { offset_in_eh_frame: u32 },
    CfiOps(Vec<CompactCfiOp>),
}

pub enum CompactCfiOp {
    RegisterAt {
        dest_reg: CompactCfiRegister,
        src_reg: CompactCfiRegister,
        offset_from_src: i32,
    },
    RegisterIs {
        dest_reg: CompactCfiRegister,
        src_reg: CompactCfiRegister,
        offset_from_src: i32,
    },
}

#[derive(PartialEq)]
pub struct CompactCfiRegister;

impl CompactCfiRegister {
    pub fn is_cfa(&self) -> bool {
        false
    }

    pub fn instruction_pointer() -> Self {
        CompactCfiRegister
    }

    pub fn name(&self, _iter: &CompactUnwindInfoIter<'_>) -> Option<&'static str> {
        None
    }
}
