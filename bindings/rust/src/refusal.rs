//! Why a call refuses, and what was done of a book before.

use crate::Text;
use std::error::Error;
use std::fmt;

/// Why a call refuses. A translation gives 1 to 9, of which the first three are about the call, the others about one entry;
/// [`decode_x64`](crate::decode_x64) gives 4, 10 and 11, [`decode_arm64`](crate::decode_arm64) 4 and 12. Later calls may add
/// numbers.
#[derive(Clone, Copy, Debug, PartialEq, Eq, Hash)]
#[non_exhaustive]
pub enum Refusal {
    /// 1: the work area is too short. This crate always gives one that is long enough.
    Work = 1,
    /// 2: the limit is above [`NO_LIMIT`](crate::NO_LIMIT).
    Limit = 2,
    /// 3: the book breaks the contents rules.
    Contents = 3,
    /// 4: the entry's body breaks its layout or a range; x64 bytes have no part, or more than 32; ARM64 codes are more than 1,024
    /// operations.
    Layout = 4,
    /// 5: an x64 entry has more infos than the limit.
    Chain = 5,
    /// 6: a number is out of reach.
    Reach = 6,
    /// 7: an x64 entry sets a frame register twice.
    Frame = 7,
    /// 8: the entry's text is longer than 8,192 bytes.
    Long = 8,
    /// 9: the text would be longer than the bound, [`Translator::most_bytes`](crate::Translator::most_bytes). Bodies always have
    /// room.
    Room = 9,
    /// 10: the version of a part of x64 bytes is not 1.
    UnwindVersion = 10,
    /// 11: x64 bytes end before the four header bytes or the counted slots of a part.
    UnwindShort = 11,
    /// 12: ARM64 codes end inside a code.
    CodeShort = 12,
}

use Refusal::*;

/// The refusals by number, from 1.
const REFUSALS: [Refusal; 12] =
    [Work, Limit, Contents, Layout, Chain, Reach, Frame, Long, Room, UnwindVersion, UnwindShort, CodeShort];

impl Refusal {
    /// The refusal of a call's number, none for 0.
    pub(crate) fn from_number(number: u32) -> Option<Refusal> {
        match number {
            0 => None,
            _ => Some(REFUSALS[number as usize - 1]),
        }
    }

    /// The number of the refusal, 1 to 12.
    pub fn number(self) -> u32 {
        self as u32
    }

    /// Whether a translation gives it for one entry of the book: 4 to 9.
    pub fn is_of_entry(self) -> bool {
        (Layout.number()..=Room.number()).contains(&self.number())
    }
}

impl fmt::Display for Refusal {
    fn fmt(&self, f: &mut fmt::Formatter) -> fmt::Result {
        f.write_str(match self {
            Work => "the work area is shorter than 8,192 bytes",
            Limit => "the chain limit is above 32",
            Contents => "the book breaks the contents rules",
            Layout => "the entry's body breaks its layout or a range",
            Chain => "the entry's chain has more infos than the limit",
            Reach => "a number of the entry is out of reach",
            Frame => "the entry sets a frame register twice",
            Long => "the entry's text is longer than 8,192 bytes",
            Room => "the entry's text does not fit within the bound of the text",
            UnwindVersion => "the version of a part is not 1",
            UnwindShort => "the bytes end before the four header bytes or the counted slots of a part",
            CodeShort => "the bytes end inside a code",
        })
    }
}

impl Error for Refusal {}

/// A book that is refused: the reason, and what was done before.
#[derive(Clone, Debug, PartialEq, Eq)]
pub struct Refused {
    refusal: Refusal,
    done: Text,
}

impl Refused {
    pub(crate) fn new(refusal: Refusal, done: Text) -> Refused {
        Refused { refusal, done }
    }

    /// Why the book is refused.
    pub fn refusal(&self) -> Refusal {
        self.refusal
    }

    /// The number of the refusal, 1 to 9.
    pub fn number(&self) -> u32 {
        self.refusal.number()
    }

    /// The index of the entry that is refused, where the refusal is about one: 4 to 9.
    pub fn entry(&self) -> Option<usize> {
        self.refusal.is_of_entry().then_some(self.done.entries())
    }

    /// The lines of the entries before the one that is refused. No later entry is looked at.
    pub fn done(&self) -> &Text {
        &self.done
    }

    /// The same, without the refusal.
    pub fn into_done(self) -> Text {
        self.done
    }
}

impl fmt::Display for Refused {
    fn fmt(&self, f: &mut fmt::Formatter) -> fmt::Result {
        write!(f, "refused {}", self.number())?;
        if let Some(entry) = self.entry() {
            write!(f, " at entry {entry}")?;
        }
        write!(f, ": {}", self.refusal)
    }
}

impl Error for Refused {}
