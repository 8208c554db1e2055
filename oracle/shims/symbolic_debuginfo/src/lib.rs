//! Stands for the crate `symbolic-debuginfo`: objects whose unwind data is filled in by hand.
//! Breakpad and Mach-O are here only because the source names them; nothing makes such objects.

use symbolic_common::Arch;

pub mod breakpad;
pub mod dwarf;
pub mod macho;
pub mod pdb;
pub mod pe;

/// An error type that is named and never met.
macro_rules! error_type {
    ($name:ident) => {
        #[derive(Debug)]
        pub struct $name;

        impl std::fmt::Display for $name {
            fn fmt(&self, f: &mut std::fmt::Formatter<'_>) -> std::fmt::Result {
                f.write_str(stringify!($name))
            }
        }

        impl std::error::Error for $name {}
    };
}
pub(crate) use error_type;

error_type!(ObjectError);

pub enum Object<'d> {
    Breakpad(breakpad::BreakpadObject<'d>),
    MachO(macho::MachObject<'d>),
    Elf(dwarf::ElfObject<'d>),
    Pdb(pdb::PdbObject<'d>),
    Pe(pe::PeObject<'d>),
    Wasm(dwarf::ElfObject<'d>),
    SourceBundle(()),
    PortablePdb(()),
}

impl Object<'_> {
    pub fn arch(&self) -> Arch {
        Arch::Unknown
    }

    pub fn debug_id(&self) -> DebugId {
        DebugId
    }
}

pub struct DebugId;

impl DebugId {
    pub fn breakpad(&self) -> &'static str {
        ""
    }
}

pub trait ObjectLike<'d, 'o> {
    fn arch(&self) -> Arch;
    fn load_address(&self) -> u64;
}
