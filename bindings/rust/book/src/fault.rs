//! What is wrong with values or words.

use std::fmt;

/// What values or words break of the contents rules or of a body's layout.
///
/// ```
/// use stacklines_book::Book;
///
/// let fault = Book::from_words(&[1, 1, 4, 2, 7, 7]).unwrap_err();
/// assert_eq!((fault.number(), fault.entry()), (4, Some(0)));
/// assert_eq!(fault.to_string(), "entry 0: the body ends too early");
/// ```
#[derive(Clone, Debug, PartialEq, Eq)]
pub struct Fault {
    number: u32,
    entry: Option<usize>,
    what: &'static str,
}

impl Fault {
    pub(crate) fn contents(what: &'static str) -> Fault {
        Fault { number: 3, entry: None, what }
    }

    pub(crate) fn layout(what: &'static str) -> Fault {
        Fault { number: 4, entry: None, what }
    }

    pub(crate) fn contents_unless(holds: bool, what: &'static str) -> Result<(), Fault> {
        holds.then_some(()).ok_or(Fault::contents(what))
    }

    pub(crate) fn layout_unless(holds: bool, what: &'static str) -> Result<(), Fault> {
        holds.then_some(()).ok_or(Fault::layout(what))
    }

    pub(crate) fn in_entry(self, entry: usize) -> Fault {
        Fault { entry: Some(entry), ..self }
    }

    /// The number of the refusal that words with this fault meet: 3 for the contents, 4 for a body.
    pub fn number(&self) -> u32 {
        self.number
    }

    /// The index of the entry at fault, where it is one of a book.
    pub fn entry(&self) -> Option<usize> {
        self.entry
    }

    /// What is wrong, without the entry.
    pub fn what(&self) -> &'static str {
        self.what
    }
}

impl fmt::Display for Fault {
    fn fmt(&self, f: &mut fmt::Formatter) -> fmt::Result {
        match self.entry {
            Some(entry) => write!(f, "entry {entry}: {}", self.what),
            None => f.write_str(self.what),
        }
    }
}

impl std::error::Error for Fault {}
