//! Unwind bytes of an image, decoded into entries of books.

mod arm64;
mod x64;

pub use arm64::{decode_arm64, MOST_ARM64_BODY};
pub use x64::{decode_x64, MOST_X64_BODY};

use crate::book::Entry;
use crate::Refusal;
use std::error::Error;
use std::fmt;

/// The entry of a call's number and words. `layout` says what its 4 is about.
fn entry<E: Entry>((number, body): (u32, Vec<u32>), layout: &'static str) -> Result<E, Undecoded> {
    match Refusal::from_number(number) {
        None => Ok(E::read(&body).expect("a decoded body keeps the layout").0),
        Some(refusal) => Err(Undecoded { refusal, layout }),
    }
}

/// Unwind bytes that are refused: [`Refusal::Layout`], of x64 also [`Refusal::UnwindVersion`] and [`Refusal::UnwindShort`], of
/// ARM64 also [`Refusal::CodeShort`].
#[derive(Clone, Copy, Debug, PartialEq, Eq, Hash)]
pub struct Undecoded {
    refusal: Refusal,
    layout: &'static str,
}

impl Undecoded {
    /// Why the bytes are refused.
    pub fn refusal(&self) -> Refusal {
        self.refusal
    }

    /// The number of the refusal: 4, 10 or 11 of x64, 4 or 12 of ARM64.
    pub fn number(&self) -> u32 {
        self.refusal.number()
    }
}

impl fmt::Display for Undecoded {
    fn fmt(&self, f: &mut fmt::Formatter) -> fmt::Result {
        write!(f, "refused {}: ", self.number())?;
        match self.refusal {
            Refusal::Layout => f.write_str(self.layout),
            refusal => refusal.fmt(f),
        }
    }
}

impl Error for Undecoded {}
