//! Entries of x64 books: a function of a PE image with its chain of unwind infos, as in Microsoft's `UNWIND_INFO`.

use crate::words::{Reader, Writer};
use crate::Fault;

/// The most infos of a chain.
pub const MOST_INFOS: usize = 32;

/// The most operations of an info.
pub const MOST_OPERATIONS: usize = 255;

/// The highest offset of a frame register.
pub const MOST_FRAME_OFFSET: u8 = 240;

/// A function and its unwind information.
#[derive(Clone, Debug, Default, PartialEq, Eq)]
pub struct X64 {
    /// Where the function begins, relative to the image.
    pub begin: u32,
    /// Where it ends. An end below the beginning lets the entry be skipped.
    pub end: u32,
    /// Where its unwind information lies. With all three addresses 0 the entry is skipped.
    pub info_address: u32,
    /// The function's own info, then its parent's, which it is chained to, and so on; 1 to 32. They are run last to first.
    pub infos: Vec<Info>,
}

/// One unwind info.
#[derive(Clone, Debug, Default, PartialEq, Eq)]
pub struct Info {
    /// The frame register; `Rax`, number 0, where there is none.
    pub frame_register: Register,
    /// How far the frame register lies above RSP when it is set, 0 to 240.
    pub frame_offset: u8,
    /// The prolog's operations, at most 255, in stored order: the prolog's last operation comes first.
    pub operations: Vec<Operation>,
}

/// An operation of a prolog.
#[derive(Clone, Copy, Debug, PartialEq, Eq)]
pub enum Operation {
    /// Pushes a register.
    Push(Register),
    /// Allocates so many bytes of stack.
    Allocate(u32),
    /// Saves a register at RSP plus an offset.
    SaveAtRsp {
        /// The register saved.
        register: Register,
        /// Its offset from RSP.
        offset: u32,
    },
    /// Saves a register at the frame register plus an offset.
    SaveAtFrame {
        /// The register saved.
        register: Register,
        /// Its offset from the base of the frame.
        offset: u32,
    },
    /// Sets the info's frame register to RSP plus the info's frame offset.
    SetFrame,
    /// The processor has pushed a machine frame, as for an interrupt.
    MachineFrame {
        /// Whether it has pushed an error code as well.
        error_code: bool,
    },
    /// An operation that moves and saves nothing of interest, as saving an XMM register.
    Other,
    /// An operation that could not be decoded. It lets the entry be skipped.
    Undecodable,
}

impl Operation {
    /// How many of the operation's words are not read.
    pub fn unused(&self) -> usize {
        match self {
            Operation::SaveAtRsp { .. } | Operation::SaveAtFrame { .. } => 0,
            Operation::Push(_) | Operation::Allocate(_) | Operation::MachineFrame { .. } => 1,
            Operation::SetFrame | Operation::Other | Operation::Undecodable => 2,
        }
    }

    fn get(words: &mut Reader) -> Result<Operation, Fault> {
        let kind = words.word()?;
        let register = match kind {
            1 | 3 | 4 => Register::get(words)?,
            _ => {
                words.unused(1)?;
                Register::default()
            }
        };
        let offset = match kind {
            2..=4 | 6 => words.word()?,
            _ => {
                words.unused(1)?;
                0
            }
        };
        Ok(match kind {
            1 => Operation::Push(register),
            2 => Operation::Allocate(offset),
            3 => Operation::SaveAtRsp { register, offset },
            4 => Operation::SaveAtFrame { register, offset },
            5 => Operation::SetFrame,
            6 if offset > 1 => return Err(Fault::layout("the value of a machine frame is not 0 or 1")),
            6 => Operation::MachineFrame { error_code: offset == 1 },
            7 => Operation::Other,
            8 => Operation::Undecodable,
            _ => return Err(Fault::layout("the kind of an operation is not 1 to 8")),
        })
    }

    fn put(&self, words: &mut Writer) {
        let kind: u32 = match self {
            Operation::Push(_) => 1,
            Operation::Allocate(_) => 2,
            Operation::SaveAtRsp { .. } => 3,
            Operation::SaveAtFrame { .. } => 4,
            Operation::SetFrame => 5,
            Operation::MachineFrame { .. } => 6,
            Operation::Other => 7,
            Operation::Undecodable => 8,
        };
        words.word(kind);
        match *self {
            Operation::Push(register)
            | Operation::SaveAtRsp { register, .. }
            | Operation::SaveAtFrame { register, .. } => {
                words.word(register.number());
            }
            _ => words.unused(1),
        }
        match *self {
            Operation::Allocate(value) => words.word(value),
            Operation::SaveAtRsp { offset, .. } | Operation::SaveAtFrame { offset, .. } => words.word(offset),
            Operation::MachineFrame { error_code } => words.word(error_code),
            _ => words.unused(1),
        }
    }
}

/// A register, numbered as Microsoft does.
#[derive(Clone, Copy, Debug, Default, PartialEq, Eq, Hash)]
pub enum Register {
    /// Number 0.
    #[default]
    Rax,
    /// Number 1.
    Rcx,
    /// Number 2.
    Rdx,
    /// Number 3.
    Rbx,
    /// Number 4.
    Rsp,
    /// Number 5.
    Rbp,
    /// Number 6.
    Rsi,
    /// Number 7.
    Rdi,
    /// Number 8.
    R8,
    /// Number 9.
    R9,
    /// Number 10.
    R10,
    /// Number 11.
    R11,
    /// Number 12.
    R12,
    /// Number 13.
    R13,
    /// Number 14.
    R14,
    /// Number 15.
    R15,
}

use Register::*;

/// The registers by number, with their names.
const REGISTERS: [(Register, &str); 16] = [
    (Rax, "rax"),
    (Rcx, "rcx"),
    (Rdx, "rdx"),
    (Rbx, "rbx"),
    (Rsp, "rsp"),
    (Rbp, "rbp"),
    (Rsi, "rsi"),
    (Rdi, "rdi"),
    (R8, "r8"),
    (R9, "r9"),
    (R10, "r10"),
    (R11, "r11"),
    (R12, "r12"),
    (R13, "r13"),
    (R14, "r14"),
    (R15, "r15"),
];

impl Register {
    /// The register of this number, 0 to 15.
    pub fn from_number(number: u32) -> Option<Register> {
        REGISTERS.get(usize::try_from(number).ok()?).map(|register| register.0)
    }

    /// The register of this name, as `rbx`.
    pub fn from_name(name: &str) -> Option<Register> {
        REGISTERS.iter().find(|register| register.1 == name).map(|register| register.0)
    }

    /// The register's number, 0 to 15.
    pub fn number(self) -> u32 {
        self as u32
    }

    /// The register's name, as `rbx`.
    pub fn name(self) -> &'static str {
        REGISTERS[self as usize].1
    }

    fn get(words: &mut Reader) -> Result<Register, Fault> {
        Register::from_number(words.word()?).ok_or(Fault::layout("a register is above 15"))
    }
}

impl Info {
    /// Whether the info keeps its ranges.
    pub fn check(&self) -> Result<(), Fault> {
        Fault::layout_unless(self.frame_offset <= MOST_FRAME_OFFSET, "a frame offset is above 240")?;
        Fault::layout_unless(self.operations.len() <= MOST_OPERATIONS, "an info has more than 255 operations")
    }

    fn get(words: &mut Reader) -> Result<Info, Fault> {
        let frame_register = Register::get(words)?;
        let frame_offset = words.small("a frame offset is above 240")?;
        let count = words.word()?;
        let operations = words.many(count, Operation::get)?;
        Ok(Info { frame_register, frame_offset, operations })
    }

    fn put(&self, words: &mut Writer) {
        words.word(self.frame_register.number());
        words.word(self.frame_offset);
        words.count(self.operations.len());
        self.operations.iter().for_each(|operation| operation.put(words));
    }
}

impl X64 {
    pub(crate) fn keeps_layout(&self) -> Result<(), Fault> {
        Fault::layout_unless((1..=MOST_INFOS).contains(&self.infos.len()), "the number of infos is not 1 to 32")?;
        self.infos.iter().try_for_each(Info::check)
    }

    pub(crate) fn get(words: &mut Reader) -> Result<X64, Fault> {
        let (begin, end, info_address) = (words.word()?, words.word()?, words.word()?);
        let count = words.word()?;
        let infos = words.many(count, Info::get)?;
        Ok(X64 { begin, end, info_address, infos })
    }

    pub(crate) fn put(&self, words: &mut Writer) {
        words.word(self.begin);
        words.word(self.end);
        words.word(self.info_address);
        words.count(self.infos.len());
        self.infos.iter().for_each(|info| info.put(words));
    }
}
