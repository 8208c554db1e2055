//! Books as plain values: the input of `stacklines`, without writing words by hand.
//!
//! A book is an array of 32-bit words that holds decoded unwind data of one [`Kind`], with a body of words for each
//! entry. [`Book`] is the same as Rust values: a function of an x64 image is an [`X64`], one of an ARM64 image an
//! [`Arm64`], a frame description entry of DWARF a [`Dwarf`], and frame data of a PDB a [`Pdb`].
//!
//! ```
//! use stacklines_book::x64::{Info, Operation, Register};
//! use stacklines_book::{Book, X64};
//!
//! // push rbx; sub rsp, 32: the last operation of the prolog is stored first.
//! let operations = vec![Operation::Allocate(32), Operation::Push(Register::Rbx)];
//! let info = Info { operations, ..Info::default() };
//! let book = Book::X64(vec![X64 { begin: 0x1000, end: 0x1040, info_address: 0x5000, infos: vec![info] }]);
//! let words = book.words()?;
//! assert_eq!(words, [1, 1, 4, 13, 4096, 4160, 20480, 1, 0, 0, 2, 2, 0, 32, 1, 3, 0]);
//! assert_eq!(Book::from_words(&words)?, book);
//! # Ok::<(), stacklines_book::Fault>(())
//! ```
//!
//! # What is checked here
//!
//! [`Book::words`] and [`Book::from_words`] check what the call's refusals 3 and 4 are about: the contents, the layout and
//! the ranges. Words that `words` gives or `from_words` accepts are never refused so. The rest is left to the call: how long
//! a chain may be, whether numbers stay in reach, how long the text is. Most ranges are in the types; the others are a
//! [`Fault`], never a panic.
//!
//! # Words that are not read
//!
//! Each operation takes the same number of words, and most kinds do not use all of them; so it is with rules and CFAs.
//! `words` makes unused words 0, and `from_words` drops them. Where a book has to come back word for word, use
//! [`Book::read`] and [`Book::write`], which keep them beside the values.

#![deny(missing_docs)]
#![forbid(unsafe_code)]

pub mod arm64;
pub mod dwarf;
mod fault;
pub mod pdb;
mod words;
pub mod x64;

pub use arm64::Arm64;
pub use dwarf::Dwarf;
pub use fault::Fault;
pub use pdb::Pdb;
pub use x64::X64;

use words::{Reader, Writer};

/// The most words of a book.
pub const MOST_WORDS: usize = 16_384;

/// The most entries of a book.
pub const MOST_ENTRIES: usize = 1_024;

/// The kind of a book's entries, its first word.
#[derive(Clone, Copy, Debug, PartialEq, Eq, Hash)]
pub enum Kind {
    /// Unwind information of x64 PE images.
    X64 = 1,
    /// Unwind codes of ARM64 PE images.
    Arm64 = 2,
    /// Rows of DWARF call frame information.
    Dwarf = 3,
    /// Frame data of PDB files.
    Pdb = 4,
}

impl Kind {
    /// The kind of this number, if there is one.
    pub fn from_number(number: u32) -> Option<Kind> {
        [Kind::X64, Kind::Arm64, Kind::Dwarf, Kind::Pdb].into_iter().find(|kind| kind.number() == number)
    }

    /// The number of the kind, 1 to 4.
    pub fn number(self) -> u32 {
        self as u32
    }
}

/// An entry of a book: values that a body of words holds.
pub trait Entry: Sized {
    /// The kind of books with such entries.
    const KIND: Kind;

    /// Whether the values keep the layout and its ranges.
    fn check(&self) -> Result<(), Fault>;

    /// The values of a body, and its words that are not read, in their order.
    fn read(body: &[u32]) -> Result<(Self, Vec<u32>), Fault>;

    /// The body's words. Those that are not read are taken from `unused` in turn, and are 0 behind its end.
    fn write(&self, unused: &[u32]) -> Result<Vec<u32>, Fault>;
}

/// What is the same for every kind: an entry's body read and written, and a book made of entries.
macro_rules! entry {
    ($kind:ident) => {
        impl Entry for $kind {
            const KIND: Kind = Kind::$kind;

            fn check(&self) -> Result<(), Fault> {
                self.keeps_layout()
            }

            fn read(body: &[u32]) -> Result<(Self, Vec<u32>), Fault> {
                let mut reader = Reader::new(body);
                let entry = $kind::get(&mut reader)?;
                entry.keeps_layout()?;
                Ok((entry, reader.end()?))
            }

            fn write(&self, unused: &[u32]) -> Result<Vec<u32>, Fault> {
                self.keeps_layout()?;
                let mut writer = Writer::new(unused);
                self.put(&mut writer);
                Ok(writer.words)
            }
        }

        impl From<Vec<$kind>> for Book {
            fn from(entries: Vec<$kind>) -> Book {
                Book::$kind(entries)
            }
        }
    };
}

entry!(X64);
entry!(Arm64);
entry!(Dwarf);
entry!(Pdb);

/// A book: entries of one kind, in order.
#[derive(Clone, Debug, PartialEq, Eq)]
pub enum Book {
    /// Functions of an x64 PE image.
    X64(Vec<X64>),
    /// Functions of an ARM64 PE image.
    Arm64(Vec<Arm64>),
    /// Frame description entries of DWARF.
    Dwarf(Vec<Dwarf>),
    /// Frame data of a PDB.
    Pdb(Vec<Pdb>),
}

/// The words of a book that are not read: for each entry its own, in their order.
pub type Unused = Vec<Vec<u32>>;

impl Book {
    /// The kind of the entries.
    pub fn kind(&self) -> Kind {
        match self {
            Book::X64(_) => Kind::X64,
            Book::Arm64(_) => Kind::Arm64,
            Book::Dwarf(_) => Kind::Dwarf,
            Book::Pdb(_) => Kind::Pdb,
        }
    }

    /// The book's words, with 0 for each word that is not read.
    pub fn words(&self) -> Result<Vec<u32>, Fault> {
        self.write(&Unused::new())
    }

    /// The values of a book, without the words that are not read.
    pub fn from_words(words: &[u32]) -> Result<Book, Fault> {
        Ok(Book::read(words)?.0)
    }

    /// The values of a book, and its words that are not read.
    ///
    /// ```
    /// # use stacklines_book::Book;
    /// // Push rbx, with 99 as its value.
    /// let words = [1, 1, 4, 10, 4096, 4160, 20480, 1, 0, 0, 1, 1, 3, 99];
    /// let (book, unused) = Book::read(&words)?;
    /// assert_eq!(unused, [[99]]);
    /// assert_eq!(book.write(&unused)?, words);
    /// assert_eq!(book.words()?[13], 0);
    /// # Ok::<(), stacklines_book::Fault>(())
    /// ```
    pub fn read(words: &[u32]) -> Result<(Book, Unused), Fault> {
        let (kind, bodies) = bodies(words)?;
        match kind {
            Kind::X64 => read_entries::<X64>(&bodies),
            Kind::Arm64 => read_entries::<Arm64>(&bodies),
            Kind::Dwarf => read_entries::<Dwarf>(&bodies),
            Kind::Pdb => read_entries::<Pdb>(&bodies),
        }
    }

    /// The book's words, with these words where none is read, and 0 where there are no more of them.
    pub fn write(&self, unused: &Unused) -> Result<Vec<u32>, Fault> {
        let bodies = match self {
            Book::X64(entries) => write_entries(entries, unused),
            Book::Arm64(entries) => write_entries(entries, unused),
            Book::Dwarf(entries) => write_entries(entries, unused),
            Book::Pdb(entries) => write_entries(entries, unused),
        };
        assemble(self.kind(), &bodies?)
    }
}

fn read_entries<E: Entry>(bodies: &[&[u32]]) -> Result<(Book, Unused), Fault>
where
    Book: From<Vec<E>>,
{
    let mut entries = Vec::new();
    let mut unused = Unused::new();
    for (i, body) in bodies.iter().enumerate() {
        let (entry, rest) = E::read(body).map_err(|fault| fault.in_entry(i))?;
        entries.push(entry);
        unused.push(rest);
    }
    Ok((Book::from(entries), unused))
}

fn write_entries<E: Entry>(entries: &[E], unused: &Unused) -> Result<Vec<Vec<u32>>, Fault> {
    let of = |i: usize| unused.get(i).map_or(&[][..], |words| &words[..]);
    let written = entries.iter().enumerate();
    written.map(|(i, entry)| entry.write(of(i)).map_err(|fault| fault.in_entry(i))).collect()
}

/// The kind and the bodies of a book that keeps the contents rules; nothing is said of the bodies.
pub fn bodies(book: &[u32]) -> Result<(Kind, Vec<&[u32]>), Fault> {
    let rule = Fault::contents_unless;
    rule(book.len() >= 2, "the book has fewer than two words")?;
    rule(book.len() <= MOST_WORDS, "the book has more than 16,384 words")?;
    let kind = Kind::from_number(book[0]).ok_or(Fault::contents("the kind is not 1 to 4"))?;
    let count = book[1] as usize;
    rule(count <= MOST_ENTRIES, "the book has more than 1,024 entries")?;
    let mut at = 2 + 2 * count;
    rule(at <= book.len(), "the book ends within its contents")?;
    let mut bodies = Vec::with_capacity(count);
    for pair in book[2..at].chunks_exact(2) {
        rule(pair[0] as usize == at, "a body does not start where the one before it ends")?;
        let end = at + pair[1] as usize;
        rule(end <= book.len(), "a body ends behind the book")?;
        bodies.push(&book[at..end]);
        at = end;
    }
    rule(at == book.len(), "the last body does not end the book")?;
    Ok((kind, bodies))
}

/// A book of these bodies, whatever their words are.
pub fn assemble(kind: Kind, bodies: &[Vec<u32>]) -> Result<Vec<u32>, Fault> {
    let rule = Fault::contents_unless;
    rule(bodies.len() <= MOST_ENTRIES, "the book has more than 1,024 entries")?;
    let mut at = 2 + 2 * bodies.len();
    let length = at + bodies.iter().map(Vec::len).sum::<usize>();
    rule(length <= MOST_WORDS, "the book has more than 16,384 words")?;
    let mut book = Vec::with_capacity(length);
    book.extend([kind.number(), bodies.len() as u32]);
    for body in bodies {
        book.extend([at as u32, body.len() as u32]);
        at += body.len();
    }
    book.extend(bodies.iter().flatten());
    Ok(book)
}
