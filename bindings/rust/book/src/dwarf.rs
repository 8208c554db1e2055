//! Entries of DWARF books: a frame description entry as the rows of its table, section 6.4 of the standard.

use crate::words::{Reader, Writer};
use crate::Fault;
use std::collections::BTreeSet;

/// The most rows of an entry.
pub const MOST_ROWS: usize = 1_024;

/// The most rules of a row, and the most registers with rules in an entry.
pub const MOST_RULES: usize = 64;

/// A frame description entry. Registers have the numbers of DWARF for the family.
///
/// ```
/// use stacklines_book::dwarf::{Cfa, Dwarf, Family, Row, Rule};
/// use stacklines_book::Book;
///
/// let cfa = Cfa::RegisterAndOffset { register: 7, offset: 8 };
/// let row = Row { start: 0x1000, end: 0x1001, cfa, rules: vec![(16, Rule::Offset(-8))] };
/// let entry = Dwarf { family: Family::Amd64, initial_address: 0x1000, load_address: 0, return_register: 16, rows: vec![row] };
/// let words = Book::Dwarf(vec![entry]).words()?;
/// assert_eq!(words[words.len() - 4..], [16, 1, 0xffff_fff8, 0xffff_ffff]);
/// # Ok::<(), stacklines_book::Fault>(())
/// ```
#[derive(Clone, Debug, Default, PartialEq, Eq)]
pub struct Dwarf {
    /// The CPU family, which decides the registers' names.
    pub family: Family,
    /// The entry's initial address. All ones let the entry be skipped.
    pub initial_address: u64,
    /// The object's load address, which is taken from every address printed.
    pub load_address: u64,
    /// The register whose rule is the return address's.
    pub return_register: u16,
    /// The rows, at most 1,024. Without any the entry is skipped.
    pub rows: Vec<Row>,
}

/// A row: how to find the CFA and the registers of the caller between two addresses.
#[derive(Clone, Debug, PartialEq, Eq)]
pub struct Row {
    /// The first address that the row is for.
    pub start: u64,
    /// The address behind the last.
    pub end: u64,
    /// The canonical frame address.
    pub cfa: Cfa,
    /// Registers and their rules, at most 64, no register twice, and not more than 64 registers in an entry.
    pub rules: Vec<(u16, Rule)>,
}

/// How the canonical frame address is found.
#[derive(Clone, Copy, Debug, PartialEq, Eq)]
pub enum Cfa {
    /// A register plus an offset.
    RegisterAndOffset {
        /// The register.
        register: u16,
        /// What is added to it.
        offset: i64,
    },
    /// A DWARF expression, of which nothing is written.
    Expression,
}

impl Cfa {
    /// How many of the CFA's words are not read.
    pub fn unused(&self) -> usize {
        match self {
            Cfa::RegisterAndOffset { .. } => 0,
            Cfa::Expression => 3,
        }
    }

    fn get(words: &mut Reader) -> Result<Cfa, Fault> {
        match words.word()? {
            0 => {
                let register = words.small(REGISTER)?;
                Ok(Cfa::RegisterAndOffset { register, offset: words.signed()? })
            }
            1 => {
                words.unused(3)?;
                Ok(Cfa::Expression)
            }
            _ => Err(Fault::layout("the kind of a CFA is not 0 or 1")),
        }
    }

    fn put(&self, words: &mut Writer) {
        match *self {
            Cfa::RegisterAndOffset { register, offset } => {
                words.word(0u32);
                words.word(register);
                words.signed(offset);
            }
            Cfa::Expression => {
                words.word(1u32);
                words.unused(3);
            }
        }
    }
}

/// How the caller's value of a register is found.
#[derive(Clone, Copy, Debug, PartialEq, Eq)]
pub enum Rule {
    /// It is unchanged.
    Same,
    /// It stands at the CFA plus an offset.
    Offset(i64),
    /// It is the CFA plus an offset.
    ValueOffset(i64),
    /// It is in another register.
    Register(u16),
    /// Any other rule, of which nothing is written.
    Other,
}

impl Rule {
    /// How many of the rule's words are not read.
    pub fn unused(&self) -> usize {
        match self {
            Rule::Same | Rule::Other => 2,
            Rule::Offset(_) | Rule::ValueOffset(_) | Rule::Register(_) => 0,
        }
    }

    fn get(words: &mut Reader) -> Result<Rule, Fault> {
        let rule = match words.word()? {
            0 => Rule::Same,
            1 => return words.signed().map(Rule::Offset),
            2 => return words.signed().map(Rule::ValueOffset),
            3 => {
                let value = u16::try_from(words.wide()?).map_err(|_| Fault::layout(REGISTER))?;
                return Ok(Rule::Register(value));
            }
            4 => Rule::Other,
            _ => return Err(Fault::layout("the kind of a rule is not 0 to 4")),
        };
        words.unused(2)?;
        Ok(rule)
    }

    fn put(&self, words: &mut Writer) {
        let kind: u32 = match self {
            Rule::Same => 0,
            Rule::Offset(_) => 1,
            Rule::ValueOffset(_) => 2,
            Rule::Register(_) => 3,
            Rule::Other => 4,
        };
        words.word(kind);
        match *self {
            Rule::Offset(value) | Rule::ValueOffset(value) => words.signed(value),
            Rule::Register(register) => words.wide(register.into()),
            Rule::Same | Rule::Other => words.unused(2),
        }
    }
}

const REGISTER: &str = "a register is above 65,535";

/// A CPU family.
#[derive(Clone, Copy, Debug, Default, PartialEq, Eq, Hash)]
pub enum Family {
    /// Any other, without names of registers.
    #[default]
    Unknown,
    /// 32-bit x86.
    Intel32,
    /// x86-64.
    Amd64,
    /// 32-bit ARM.
    Arm32,
    /// 64-bit ARM.
    Arm64,
    /// 32-bit PowerPC.
    Ppc32,
    /// 64-bit PowerPC.
    Ppc64,
    /// 32-bit MIPS.
    Mips32,
    /// 64-bit MIPS.
    Mips64,
    /// 64-bit ARM with 32-bit pointers.
    Arm64_32,
    /// 32-bit WebAssembly, without names of registers.
    Wasm32,
}

/// The families by number, with their names.
const FAMILIES: [(Family, &str); 11] = [
    (Family::Unknown, "unknown"),
    (Family::Intel32, "intel32"),
    (Family::Amd64, "amd64"),
    (Family::Arm32, "arm32"),
    (Family::Arm64, "arm64"),
    (Family::Ppc32, "ppc32"),
    (Family::Ppc64, "ppc64"),
    (Family::Mips32, "mips32"),
    (Family::Mips64, "mips64"),
    (Family::Arm64_32, "arm64_32"),
    (Family::Wasm32, "wasm32"),
];

impl Family {
    /// The family of this number, 0 to 10.
    pub fn from_number(number: u32) -> Option<Family> {
        FAMILIES.get(usize::try_from(number).ok()?).map(|family| family.0)
    }

    /// The family of this name, as `amd64`.
    pub fn from_name(name: &str) -> Option<Family> {
        FAMILIES.iter().find(|family| family.1 == name).map(|family| family.0)
    }

    /// The family's number, 0 to 10.
    pub fn number(self) -> u32 {
        self as u32
    }

    /// The family's name, as `amd64`.
    pub fn name(self) -> &'static str {
        FAMILIES[self as usize].1
    }
}

impl Row {
    /// Whether the row has few enough rules, and no register twice.
    pub fn check(&self) -> Result<(), Fault> {
        Fault::layout_unless(self.rules.len() <= MOST_RULES, "a row has more than 64 rules")?;
        let distinct: BTreeSet<u16> = self.rules.iter().map(|rule| rule.0).collect();
        Fault::layout_unless(distinct.len() == self.rules.len(), "a row has a register twice")
    }

    fn get(words: &mut Reader) -> Result<Row, Fault> {
        let (start, end) = (words.wide()?, words.wide()?);
        let cfa = Cfa::get(words)?;
        let count = words.word()?;
        let rules = words.many(count, |words| Ok((words.small(REGISTER)?, Rule::get(words)?)))?;
        Ok(Row { start, end, cfa, rules })
    }

    fn put(&self, words: &mut Writer) {
        words.wide(self.start);
        words.wide(self.end);
        self.cfa.put(words);
        words.count(self.rules.len());
        for (register, rule) in &self.rules {
            words.word(*register);
            rule.put(words);
        }
    }
}

impl Dwarf {
    pub(crate) fn keeps_layout(&self) -> Result<(), Fault> {
        Fault::layout_unless(self.rows.len() <= MOST_ROWS, "an entry has more than 1,024 rows")?;
        self.rows.iter().try_for_each(Row::check)?;
        let registers: BTreeSet<u16> = self.rows.iter().flat_map(|row| &row.rules).map(|rule| rule.0).collect();
        Fault::layout_unless(registers.len() <= MOST_RULES, "an entry has rules for more than 64 registers")
    }

    pub(crate) fn get(words: &mut Reader) -> Result<Dwarf, Fault> {
        let family = Family::from_number(words.word()?).ok_or(Fault::layout("the family is not 0 to 10"))?;
        let (initial_address, load_address) = (words.wide()?, words.wide()?);
        let return_register = words.small(REGISTER)?;
        let count = words.word()?;
        let rows = words.many(count, Row::get)?;
        Ok(Dwarf { family, initial_address, load_address, return_register, rows })
    }

    pub(crate) fn put(&self, words: &mut Writer) {
        words.word(self.family.number());
        words.wide(self.initial_address);
        words.wide(self.load_address);
        words.word(self.return_register);
        words.count(self.rows.len());
        self.rows.iter().for_each(|row| row.put(words));
    }
}
