//! STACK lines of a Breakpad symbol file from unwind data.
//!
//! This is the Rust side of a static library whose every outcome is proved; docs/BOOK.md of its repository says what each
//! is. The data comes as a book of words, which [`book`] makes from plain values:
//!
//! ```
//! use stacklines::book::x64::{Info, Operation, Register};
//! use stacklines::book::{Book, X64};
//! use stacklines::{translate, NO_LIMIT};
//!
//! // push rbx; sub rsp, 32: the last operation of the prolog is stored first.
//! let operations = vec![Operation::Allocate(32), Operation::Push(Register::Rbx)];
//! let info = Info { operations, ..Info::default() };
//! let book = Book::X64(vec![X64 { begin: 0x1000, end: 0x1040, info_address: 0x5000, infos: vec![info] }]);
//!
//! let text = translate(&book.words()?, NO_LIMIT)?;
//! assert_eq!(text.as_str(), "STACK CFI INIT 1000 40 .cfa: $rsp 48 + $rbx: .cfa 16 - ^ .ra: .cfa 8 - ^\n");
//! assert_eq!(text.entries(), 1);
//! # Ok::<(), Box<dyn std::error::Error>>(())
//! ```
//!
//! A book that cannot be translated whole is [`Refused`]: with the reason, and with the lines of the entries before the one
//! that was refused.
//!
//! ```
//! use stacklines::{translate, Refusal, NO_LIMIT};
//!
//! // The same entry, and one that lacks all words.
//! let words = [1, 2, 6, 13, 19, 0, 4096, 4160, 20480, 1, 0, 0, 2, 2, 0, 32, 1, 3, 0];
//! let refused = translate(&words, NO_LIMIT).unwrap_err();
//! assert_eq!(refused.refusal(), Refusal::Layout);
//! assert_eq!(refused.entry(), Some(1));
//! assert_eq!(refused.done().lines().count(), 1);
//! assert_eq!(refused.to_string(), "refused 4 at entry 1: the entry's body breaks its layout or a range");
//! ```
//!
//! The entry of a function of a PE image can be made from its unwind bytes: see [`decode_x64`] and [`decode_arm64`].
//!
//! The archive `libstacklines.a` is looked for in the folder that the environment variable `STACKLINES_LIB` names when this
//! crate is built, by default where `make lib` writes it in the repository.

#![deny(missing_docs)]
#![deny(unsafe_op_in_unsafe_fn)]

mod call;
mod decode;
mod refusal;
mod text;

#[doc(inline)]
pub use stacklines_book as book;

pub use decode::{decode_arm64, decode_x64, Undecoded, MOST_ARM64_BODY, MOST_X64_BODY};
pub use refusal::{Refusal, Refused};
pub use text::Text;

/// The highest chain limit: no limit.
pub const NO_LIMIT: u32 = 32;

/// A text has less bytes than this for each word of its book.
const MOST_A_WORD: usize = 64;

/// So many bytes hold the text of any book: `STACKLINES_LARGEST_TEXT` of the header.
pub const MOST_TEXT: usize = book::MOST_WORDS * MOST_A_WORD;

/// The least bytes of the first buffer for the text, and its bytes for each word of the book. Few books need more.
const FIRST_ROOM: usize = 1024;
const BYTES_A_WORD: usize = 16;

/// Translates a book. `limit` is the chain limit of x64 entries, 0 to [`NO_LIMIT`].
///
/// The text may have up to [`MOST_TEXT`] bytes, 1 MiB, so that [`Refusal::Room`] is never met. [`Translator`] sets a lower
/// bound.
pub fn translate(book: &[u32], limit: u32) -> Result<Text, Refused> {
    Translator::new().limit(limit).translate(book)
}

/// How books are translated: the chain limit, and the bound of the text.
///
/// ```
/// use stacklines::{Refusal, Translator};
///
/// let words = [1, 1, 4, 13, 4096, 4160, 20480, 1, 0, 0, 2, 2, 0, 32, 1, 3, 0];
/// assert!(Translator::new().most_bytes(73).translate(&words).is_ok());
/// let refused = Translator::new().most_bytes(72).translate(&words).unwrap_err();
/// assert_eq!(refused.refusal(), Refusal::Room);
/// ```
#[derive(Clone, Copy, Debug, PartialEq, Eq)]
pub struct Translator {
    limit: u32,
    most_bytes: usize,
}

impl Default for Translator {
    fn default() -> Self {
        Translator { limit: NO_LIMIT, most_bytes: MOST_TEXT }
    }
}

impl Translator {
    /// No chain limit, and room for every text.
    pub fn new() -> Self {
        Translator::default()
    }

    /// Sets the chain limit of x64 entries, 0 to [`NO_LIMIT`]. A higher one lets every book be refused.
    pub fn limit(self, limit: u32) -> Self {
        Translator { limit, ..self }
    }

    /// Sets how long the text may become. Not more than [`MOST_TEXT`] bytes are ever asked for.
    pub fn most_bytes(self, most_bytes: usize) -> Self {
        Translator { most_bytes, ..self }
    }

    /// Translates a book.
    ///
    /// The first buffer for the text is sized by the book. One that is too short is replaced by one that holds any text of so
    /// many words, up to the bound: there are at most two calls, mostly one. [`Refusal::Room`] comes only from the bound.
    pub fn translate(&self, book: &[u32]) -> Result<Text, Refused> {
        let most = self.most_bytes.min(MOST_TEXT);
        let rooms = [BYTES_A_WORD, MOST_A_WORD].map(|each| book.len().saturating_mul(each).max(FIRST_ROOM).min(most));
        let mut called = call::translate(book, self.limit, rooms[0]);
        if Refusal::from_number(called.number) == Some(Refusal::Room) && rooms[0] < rooms[1] {
            called = call::translate(book, self.limit, rooms[1]);
        }
        match Refusal::from_number(called.number) {
            None => Ok(called.done()),
            Some(refusal) => Err(Refused::new(refusal, called.done())),
        }
    }
}

/// Lets the examples of README.md be tested.
#[cfg(doctest)]
#[doc = include_str!("../README.md")]
struct Readme;
