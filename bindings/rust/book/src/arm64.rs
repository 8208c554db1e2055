//! Entries of ARM64 books: a function of a PE image with its unwind codes.

use crate::words::{Reader, Writer};
use crate::Fault;

/// The most operations of an entry.
pub const MOST_OPERATIONS: usize = 1_024;

/// A function and its unwind codes.
///
/// ```
/// use stacklines_book::arm64::{Arm64, Operation, Slot};
/// use stacklines_book::Book;
///
/// // stp x29, x30, [sp, #-32]!; stp x19, x20, [sp, #16]: stored from the last to the first, then the end.
/// let operations = vec![Operation::Pair(Slot::x(19, 16)), Operation::PairPre(Slot::x(29, 32)), Operation::End];
/// let book = Book::Arm64(vec![Arm64 { address: 0x1000, size: 0x40, operations }]);
/// assert_eq!(book.words()?[4..], [4096, 64, 3, 4, 0, 19, 16, 5, 0, 29, 32, 9, 0, 0, 0]);
/// # Ok::<(), stacklines_book::Fault>(())
/// ```
#[derive(Clone, Debug, Default, PartialEq, Eq)]
pub struct Arm64 {
    /// The function's address, relative to the image.
    pub address: u32,
    /// Its size in bytes.
    pub size: u32,
    /// The prolog's operations, at most 1,024, in stored order: the prolog's last operation comes first.
    /// Those behind the first [`Operation::End`] do not count.
    pub operations: Vec<Operation>,
}

/// The letter of a register's name, which says how wide it is.
#[derive(Clone, Copy, Debug, Default, PartialEq, Eq, Hash)]
pub struct Letter(
    /// 0 for x, 1 for d, any other number for q.
    pub u32,
);

impl Letter {
    /// A general register.
    pub const X: Letter = Letter(0);
    /// The low half of a vector register.
    pub const D: Letter = Letter(1);
    /// A whole vector register.
    pub const Q: Letter = Letter(2);

    /// The letter: `x`, `d` or `q`.
    pub fn name(self) -> char {
        match self {
            Letter::X => 'x',
            Letter::D => 'd',
            _ => 'q',
        }
    }
}

/// A register that is saved, or the first of a pair, and where.
#[derive(Clone, Copy, Debug, Default, PartialEq, Eq)]
pub struct Slot {
    /// The letter of the register.
    pub letter: Letter,
    /// The number of the register.
    pub register: u8,
    /// The offset from SP; where pre-indexed, how far SP goes down first.
    pub offset: u32,
}

impl Slot {
    /// A general register.
    pub fn x(register: u8, offset: u32) -> Slot {
        Slot { letter: Letter::X, register, offset }
    }

    /// The low half of a vector register.
    pub fn d(register: u8, offset: u32) -> Slot {
        Slot { letter: Letter::D, register, offset }
    }

    /// A whole vector register.
    pub fn q(register: u8, offset: u32) -> Slot {
        Slot { letter: Letter::Q, register, offset }
    }

    fn get(words: &mut Reader) -> Result<Slot, Fault> {
        let letter = Letter(words.word()?);
        let register = words.small(REGISTER)?;
        Ok(Slot { letter, register, offset: words.word()? })
    }

    fn put(&self, words: &mut Writer) {
        words.word(self.letter.0);
        words.word(self.register);
        words.word(self.offset);
    }
}

const REGISTER: &str = "a register is above 255";

/// An operation of a prolog.
#[derive(Clone, Copy, Debug, PartialEq, Eq)]
pub enum Operation {
    /// Allocates so many bytes of stack.
    Allocate(u32),
    /// Saves a register.
    Save(Slot),
    /// Allocates, then saves a register at SP.
    SavePre(Slot),
    /// Saves a pair of registers, the second behind the first.
    Pair(Slot),
    /// Allocates, then saves a pair at SP.
    PairPre(Slot),
    /// Saves an x register, and the link register behind it.
    LrPair {
        /// The number of the x register.
        register: u8,
        /// Its offset from SP.
        offset: u32,
    },
    /// Saves the pair that follows the last one.
    SaveNext,
    /// An operation that moves and saves nothing, as setting the frame pointer.
    Other,
    /// The end of the prolog.
    End,
    /// An operation that could not be decoded. It lets the entry be skipped, unless it stands behind the end.
    Undecodable,
}

impl Operation {
    /// How many of the operation's words are not read.
    pub fn unused(&self) -> usize {
        match self {
            Operation::Save(_) | Operation::SavePre(_) | Operation::Pair(_) | Operation::PairPre(_) => 0,
            Operation::LrPair { .. } => 1,
            Operation::Allocate(_) => 2,
            Operation::SaveNext | Operation::Other | Operation::End | Operation::Undecodable => 3,
        }
    }

    fn get(words: &mut Reader) -> Result<Operation, Fault> {
        let operation = match words.word()? {
            1 => {
                words.unused(2)?;
                return Ok(Operation::Allocate(words.word()?));
            }
            2 => return Slot::get(words).map(Operation::Save),
            3 => return Slot::get(words).map(Operation::SavePre),
            4 => return Slot::get(words).map(Operation::Pair),
            5 => return Slot::get(words).map(Operation::PairPre),
            6 => {
                words.unused(1)?;
                let register = words.small(REGISTER)?;
                return Ok(Operation::LrPair { register, offset: words.word()? });
            }
            7 => Operation::SaveNext,
            8 => Operation::Other,
            9 => Operation::End,
            10 => Operation::Undecodable,
            _ => return Err(Fault::layout("the kind of an operation is not 1 to 10")),
        };
        words.unused(3)?;
        Ok(operation)
    }

    fn kind(&self) -> u32 {
        match self {
            Operation::Allocate(_) => 1,
            Operation::Save(_) => 2,
            Operation::SavePre(_) => 3,
            Operation::Pair(_) => 4,
            Operation::PairPre(_) => 5,
            Operation::LrPair { .. } => 6,
            Operation::SaveNext => 7,
            Operation::Other => 8,
            Operation::End => 9,
            Operation::Undecodable => 10,
        }
    }

    fn put(&self, words: &mut Writer) {
        words.word(self.kind());
        words.unused(self.unused());
        match self {
            Operation::Allocate(value) => words.word(*value),
            Operation::Save(slot) | Operation::SavePre(slot) | Operation::Pair(slot) | Operation::PairPre(slot) => {
                slot.put(words);
            }
            Operation::LrPair { register, offset } => {
                words.word(*register);
                words.word(*offset);
            }
            _ => {}
        }
    }
}

impl Arm64 {
    pub(crate) fn keeps_layout(&self) -> Result<(), Fault> {
        Fault::layout_unless(self.operations.len() <= MOST_OPERATIONS, "an entry has more than 1,024 operations")
    }

    pub(crate) fn get(words: &mut Reader) -> Result<Arm64, Fault> {
        let (address, size) = (words.word()?, words.word()?);
        let count = words.word()?;
        let operations = words.many(count, Operation::get)?;
        Ok(Arm64 { address, size, operations })
    }

    pub(crate) fn put(&self, words: &mut Writer) {
        words.word(self.address);
        words.word(self.size);
        words.count(self.operations.len());
        self.operations.iter().for_each(|operation| operation.put(words));
    }
}
