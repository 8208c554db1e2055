//! Entries of PDB books: frame data, with the ranges that its addresses are mapped to.

use crate::words::{Reader, Writer};
use crate::Fault;

/// The most ranges of a list.
pub const MOST_RANGES: usize = 16;

/// The most bytes of a program.
pub const MOST_PROGRAM: usize = 1_024;

/// One record of frame data.
///
/// ```
/// use stacklines_book::pdb::{FrameType, Pdb, Range};
/// use stacklines_book::Book;
///
/// let entry = Pdb {
///     frame_type: FrameType::FrameData,
///     code_start: 0x1000,
///     code_size: 0x40,
///     prolog_size: 3,
///     string_table: true,
///     program: Some("$T0 $ebp = $eip $T0 4 + ^ =".to_string()),
///     prolog_ranges: vec![Range { start: 0x1000, end: 0x1003 }],
///     code_ranges: vec![Range { start: 0x1003, end: 0x1040 }],
///     ..Pdb::default()
/// };
/// assert_eq!(Book::Pdb(vec![entry]).words()?.len(), 4 + 15 + 4 + 27);
/// # Ok::<(), stacklines_book::Fault>(())
/// ```
#[derive(Clone, Debug, Default, PartialEq, Eq)]
pub struct Pdb {
    /// The type of the frame.
    pub frame_type: FrameType,
    /// Where the code starts.
    pub code_start: u32,
    /// The size of the code with its prolog. Above 7FFFFFFFh the entry is skipped.
    pub code_size: u32,
    /// The size of the prolog.
    pub prolog_size: u16,
    /// Bytes of parameters.
    pub params_size: u32,
    /// Bytes of saved registers.
    pub saved_registers_size: u16,
    /// Bytes of local variables.
    pub locals_size: u32,
    /// The most bytes pushed, if known.
    pub max_stack_size: Option<u32>,
    /// Whether the base pointer is used for something else.
    pub uses_base_pointer: bool,
    /// Whether the PDB has a string table to look the program up in.
    pub string_table: bool,
    /// The program that finds the caller's frame, if the record names one: at most 1,024 bytes from space to tilde.
    /// It is empty where there is no string table.
    pub program: Option<String>,
    /// Where the prolog lies in the image, at most 16 ranges.
    pub prolog_ranges: Vec<Range>,
    /// Where the code behind the prolog lies in the image, at most 16 ranges.
    pub code_ranges: Vec<Range>,
}

/// A range of addresses in the image. It does not end before it starts, and starts in one list differ.
#[derive(Clone, Copy, Debug, Default, PartialEq, Eq)]
pub struct Range {
    /// The first address.
    pub start: u32,
    /// The address behind the last.
    pub end: u32,
}

/// The type of a frame.
#[derive(Clone, Copy, Debug, Default, PartialEq, Eq, Hash)]
pub enum FrameType {
    /// A frame without a frame pointer.
    #[default]
    Fpo,
    /// A trap frame of the kernel.
    Trap,
    /// A task state segment.
    Tss,
    /// A frame with a frame pointer.
    Standard,
    /// A frame described by a program.
    FrameData,
}

/// The types by number, with their names.
const FRAME_TYPES: [(FrameType, &str); 5] = [
    (FrameType::Fpo, "fpo"),
    (FrameType::Trap, "trap"),
    (FrameType::Tss, "tss"),
    (FrameType::Standard, "standard"),
    (FrameType::FrameData, "frame-data"),
];

impl FrameType {
    /// The type of this number, 0 to 4.
    pub fn from_number(number: u32) -> Option<FrameType> {
        FRAME_TYPES.get(usize::try_from(number).ok()?).map(|frame| frame.0)
    }

    /// The type of this name, as `frame-data`.
    pub fn from_name(name: &str) -> Option<FrameType> {
        FRAME_TYPES.iter().find(|frame| frame.1 == name).map(|frame| frame.0)
    }

    /// The type's number, 0 to 4.
    pub fn number(self) -> u32 {
        self as u32
    }

    /// The type's name, as `frame-data`.
    pub fn name(self) -> &'static str {
        FRAME_TYPES[self as usize].1
    }
}

fn check_ranges(ranges: &[Range]) -> Result<(), Fault> {
    Fault::layout_unless(ranges.len() <= MOST_RANGES, "a list has more than 16 ranges")?;
    Fault::layout_unless(ranges.iter().all(|range| range.start <= range.end), "a range ends before it starts")?;
    let mut starts: Vec<u32> = ranges.iter().map(|range| range.start).collect();
    starts.sort_unstable();
    let differ = starts.windows(2).all(|two| two[0] != two[1]);
    Fault::layout_unless(differ, "two ranges of a list have the same start")
}

fn get_ranges(words: &mut Reader, count: u32) -> Result<Vec<Range>, Fault> {
    words.many(count, |words| Ok(Range { start: words.word()?, end: words.word()? }))
}

const PROGRAM_BYTE: &str = "a byte of the program is not 32 to 126";

impl Pdb {
    fn program(&self) -> &str {
        self.program.as_deref().unwrap_or("")
    }

    pub(crate) fn keeps_layout(&self) -> Result<(), Fault> {
        let program = self.program();
        Fault::layout_unless(program.len() <= MOST_PROGRAM, "the program is longer than 1,024 bytes")?;
        Fault::layout_unless(program.bytes().all(|byte| (32..=126).contains(&byte)), PROGRAM_BYTE)?;
        Fault::layout_unless(
            program.is_empty() || self.string_table,
            "there are a program's bytes without a string table",
        )?;
        check_ranges(&self.prolog_ranges)?;
        check_ranges(&self.code_ranges)
    }

    pub(crate) fn get(words: &mut Reader) -> Result<Pdb, Fault> {
        let frame_type = FrameType::from_number(words.word()?).ok_or(Fault::layout("the type is not 0 to 4"))?;
        let (code_start, code_size) = (words.word()?, words.word()?);
        let prolog_size = words.small("the prolog size is above 65,535")?;
        let params_size = words.word()?;
        let saved_registers_size = words.small("the size of saved registers is above 65,535")?;
        let locals_size = words.word()?;
        let max_stack_size = get_max_stack(words)?;
        let uses_base_pointer = words.flag("the base pointer's word is not 0 or 1")?;
        let has_program = words.flag("the program's word is not 0 or 1")?;
        let string_table = words.flag("the string table's word is not 0 or 1")?;
        let (prologs, codes, length) = (words.word()?, words.word()?, words.word()?);
        let prolog_ranges = get_ranges(words, prologs)?;
        let code_ranges = get_ranges(words, codes)?;
        let program = words.many(length, |words| words.small::<u8>(PROGRAM_BYTE).map(char::from))?;
        Fault::layout_unless(has_program || program.is_empty(), "there are a program's bytes without a program")?;
        Ok(Pdb {
            frame_type,
            code_start,
            code_size,
            prolog_size,
            params_size,
            saved_registers_size,
            locals_size,
            max_stack_size,
            uses_base_pointer,
            string_table,
            program: has_program.then(|| program.into_iter().collect()),
            prolog_ranges,
            code_ranges,
        })
    }

    pub(crate) fn put(&self, words: &mut Writer) {
        words.word(self.frame_type.number());
        words.word(self.code_start);
        words.word(self.code_size);
        words.word(self.prolog_size);
        words.word(self.params_size);
        words.word(self.saved_registers_size);
        words.word(self.locals_size);
        words.word(self.max_stack_size.is_some());
        match self.max_stack_size {
            Some(size) => words.word(size),
            None => words.unused(1),
        }
        words.word(self.uses_base_pointer);
        words.word(self.program.is_some());
        words.word(self.string_table);
        words.count(self.prolog_ranges.len());
        words.count(self.code_ranges.len());
        words.count(self.program().len());
        for range in self.prolog_ranges.iter().chain(&self.code_ranges) {
            words.word(range.start);
            words.word(range.end);
        }
        self.program().bytes().for_each(|byte| words.word(byte));
    }
}

/// The word behind a 0 is not read.
fn get_max_stack(words: &mut Reader) -> Result<Option<u32>, Fault> {
    if words.flag("the max stack's word is not 0 or 1")? {
        return words.word().map(Some);
    }
    words.unused(1)?;
    Ok(None)
}
