//! PDB frame data. Frames are handed out one by one; a cursor says whose address ranges are asked for.

use std::cell::{RefCell, RefMut};

/// A PDB behind its lock.
pub struct PdbObject<'d> {
    pub inner: Locked<'d>,
}

impl<'d> PdbObject<'d> {
    pub fn inner(&self) -> &Locked<'d> {
        &self.inner
    }
}

pub struct Locked<'d>(pub RefCell<pdb::Pdb<'d>>);

impl<'d> Locked<'d> {
    pub fn lock(&self) -> RefMut<'_, pdb::Pdb<'d>> {
        self.0.borrow_mut()
    }
}

pub mod pdb {
    use std::borrow::Cow;
    use std::cell::Cell;
    use std::marker::PhantomData;
    use std::ops::{Add, Range, Sub};
    use std::rc::Rc;

    #[derive(Debug)]
    pub enum Error {
        StreamNameNotFound,
        Other,
    }

    impl std::fmt::Display for Error {
        fn fmt(&self, f: &mut std::fmt::Formatter<'_>) -> std::fmt::Result {
            f.write_str("pdb error")
        }
    }

    impl std::error::Error for Error {}

    pub trait FallibleIterator {
        type Item;
        type Error;

        fn next(&mut self) -> Result<Option<Self::Item>, Self::Error>;
    }

    /// An address before translation.
    #[derive(Clone, Copy, Debug, PartialEq)]
    pub struct PdbInternalRva(pub u32);

    impl Add<u32> for PdbInternalRva {
        type Output = Self;

        fn add(self, size: u32) -> Self {
            PdbInternalRva(self.0.wrapping_add(size))
        }
    }

    #[derive(Clone, Copy, Debug, PartialEq, Eq, PartialOrd, Ord)]
    pub struct Rva(pub u32);

    impl Sub for Rva {
        type Output = u32;

        fn sub(self, other: Self) -> u32 {
            self.0.wrapping_sub(other.0)
        }
    }

    #[derive(Clone, Copy, Debug, PartialEq)]
    #[repr(u8)]
    pub enum FrameType {
        Fpo = 0,
        Trap = 1,
        Tss = 2,
        Standard = 3,
        FrameData = 4,
    }

    /// A reference into the string table: here the string itself, shared.
    #[derive(Clone, Debug)]
    pub struct StringRef(pub Rc<str>);

    impl StringRef {
        pub fn to_string_lossy(&self, _table: &StringTable<'_>) -> Result<Cow<'_, str>, Error> {
            Ok(Cow::Borrowed(&self.0))
        }
    }

    #[derive(Clone, Debug)]
    pub struct FrameData {
        pub ty: FrameType,
        pub code_start: PdbInternalRva,
        pub code_size: u32,
        pub prolog_size: u16,
        pub params_size: u32,
        pub saved_regs_size: u16,
        pub locals_size: u32,
        pub max_stack_size: Option<u32>,
        pub uses_base_pointer: bool,
        pub program: Option<StringRef>,
    }

    /// A frame, and the ranges its prolog and its code translate to.
    pub struct Frame {
        pub data: FrameData,
        pub prolog: Vec<Range<Rva>>,
        pub code: Vec<Range<Rva>>,
    }

    pub struct StringTable<'d>(PhantomData<&'d ()>);

    /// The frame handed out last, and how many times its ranges have been asked for.
    pub type Cursor = Rc<Cell<(usize, usize)>>;

    pub struct Pdb<'d> {
        pub frames: Rc<Vec<Frame>>,
        pub has_table: bool,
        pub cursor: Cursor,
        /// Called before each frame is handed out, and once after the last.
        pub watch: Rc<dyn Fn()>,
        pub lifetime: PhantomData<&'d ()>,
    }

    impl<'d> Pdb<'d> {
        pub fn frame_table(&mut self) -> Result<FrameTable, Error> {
            Ok(FrameTable {
                frames: self.frames.clone(),
                cursor: self.cursor.clone(),
                watch: self.watch.clone(),
            })
        }

        pub fn address_map(&mut self) -> Result<AddressMap, Error> {
            Ok(AddressMap { frames: self.frames.clone(), cursor: self.cursor.clone() })
        }

        pub fn string_table(&mut self) -> Result<StringTable<'d>, Error> {
            if self.has_table {
                Ok(StringTable(PhantomData))
            } else {
                Err(Error::StreamNameNotFound)
            }
        }
    }

    pub struct FrameTable {
        frames: Rc<Vec<Frame>>,
        cursor: Cursor,
        watch: Rc<dyn Fn()>,
    }

    impl FrameTable {
        pub fn iter(&self) -> FrameIter<'_> {
            FrameIter { table: self, given: 0 }
        }
    }

    pub struct FrameIter<'a> {
        table: &'a FrameTable,
        given: usize,
    }

    impl FallibleIterator for FrameIter<'_> {
        type Item = FrameData;
        type Error = Error;

        fn next(&mut self) -> Result<Option<FrameData>, Error> {
            (self.table.watch)();
            let Some(frame) = self.table.frames.get(self.given) else {
                return Ok(None);
            };
            self.table.cursor.set((self.given, 0));
            self.given += 1;
            Ok(Some(frame.data.clone()))
        }
    }

    pub struct AddressMap {
        frames: Rc<Vec<Frame>>,
        cursor: Cursor,
    }

    impl AddressMap {
        /// The first question about a frame is for its prolog, the second for its code.
        pub fn rva_ranges(&self, asked: Range<PdbInternalRva>) -> std::iter::Cloned<std::slice::Iter<'_, Range<Rva>>> {
            let (i, times) = self.cursor.get();
            self.cursor.set((i, times + 1));
            let Frame { data, prolog, code } = &self.frames[i];
            let middle = data.code_start + u32::from(data.prolog_size);
            let ranges = if times == 0 {
                assert_eq!(asked, data.code_start..middle);
                prolog
            } else {
                assert_eq!(asked, middle..data.code_start + data.code_size);
                code
            };
            ranges.iter().cloned()
        }
    }
}
