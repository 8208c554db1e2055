//! DWARF unwind sections. A section holds rows filled in by hand instead of bytes.

use crate::ObjectLike;
use gimli::Fde;
use symbolic_common::Arch;

#[derive(Clone, Copy)]
pub enum Endian {
    Little,
}

pub struct DwarfSection<'d> {
    pub address: u64,
    pub data: &'d [Fde],
}

pub trait Dwarf<'d> {
    fn endianity(&self) -> Endian;
    fn section(&self, name: &str) -> Option<DwarfSection<'d>>;
}

/// An object with one unwind section.
pub struct ElfObject<'d> {
    pub arch: Arch,
    pub load_address: u64,
    pub section_name: &'static str,
    pub entries: &'d [Fde],
}

impl<'d: 'o, 'o> ObjectLike<'d, 'o> for ElfObject<'d> {
    fn arch(&self) -> Arch {
        self.arch
    }

    fn load_address(&self) -> u64 {
        self.load_address
    }
}

impl<'d> Dwarf<'d> for ElfObject<'d> {
    fn endianity(&self) -> Endian {
        Endian::Little
    }

    fn section(&self, name: &str) -> Option<DwarfSection<'d>> {
        (name == self.section_name).then_some(DwarfSection { address: 0, data: self.entries })
    }
}

pub mod gimli {
    use super::Endian;
    use std::fmt::Debug;
    use std::hash::Hash;
    use std::rc::Rc;

    #[derive(Clone, Copy, Debug, PartialEq, Eq)]
    pub enum Error {
        UnknownCallFrameInstruction(u8),
        TooManyRegisterRules,
        Other,
    }

    impl std::fmt::Display for Error {
        fn fmt(&self, f: &mut std::fmt::Formatter<'_>) -> std::fmt::Result {
            f.write_str("gimli error")
        }
    }

    impl std::error::Error for Error {}

    type Result<T> = std::result::Result<T, Error>;

    pub enum Vendor {
        Default,
        AArch64,
    }

    #[derive(Clone, Copy, Debug, PartialEq, Eq, Hash)]
    pub struct Register(pub u16);

    #[derive(Clone, Debug, PartialEq, Eq)]
    pub enum CfaRule<T: ReaderOffset> {
        RegisterAndOffset { register: Register, offset: i64 },
        Expression(UnwindExpression<T>),
    }

    #[derive(Clone, Debug, PartialEq, Eq)]
    pub enum RegisterRule<T: ReaderOffset> {
        Undefined,
        SameValue,
        Offset(i64),
        ValOffset(i64),
        Register(Register),
        Expression(UnwindExpression<T>),
    }

    #[derive(Clone, Debug, PartialEq, Eq)]
    pub struct UnwindExpression<T>(pub T);

    pub trait ReaderOffset: Copy + Debug + Eq + Hash {
        fn from_u32(offset: u32) -> Self;
    }

    impl ReaderOffset for usize {
        fn from_u32(offset: u32) -> Self {
            offset as usize
        }
    }

    /// A reader of entries: the rows stand in the place of bytes.
    pub trait Reader: Clone {
        type Offset: ReaderOffset;

        fn entries(&self) -> &[Fde<Self::Offset>];
    }

    #[derive(Clone, Copy, PartialEq, Eq)]
    pub struct Entries<'a>(&'a [Fde]);

    impl Reader for Entries<'_> {
        type Offset = usize;

        fn entries(&self) -> &[Fde] {
            self.0
        }
    }

    /// One entry, as the harness fills it in.
    #[derive(Clone, Debug, PartialEq, Eq)]
    pub struct Fde<T: ReaderOffset = usize> {
        pub initial_address: u64,
        pub return_register: Register,
        pub rows: Vec<UnwindTableRow<T>>,
    }

    /// A row. The Rust clones every row; here that shares the rules, where gimli's own row holds room for 192 and copies it.
    #[derive(Clone, Debug, PartialEq, Eq)]
    pub struct UnwindTableRow<T: ReaderOffset = usize> {
        pub start: u64,
        pub end: u64,
        pub cfa: CfaRule<T>,
        pub rules: Rc<[(Register, RegisterRule<T>)]>,
    }

    impl<T: ReaderOffset> UnwindTableRow<T> {
        pub fn start_address(&self) -> u64 {
            self.start
        }

        pub fn end_address(&self) -> u64 {
            self.end
        }

        pub fn cfa(&self) -> &CfaRule<T> {
            &self.cfa
        }

        pub fn registers(&self) -> std::slice::Iter<'_, (Register, RegisterRule<T>)> {
            self.rules.iter()
        }
    }

    #[derive(Default)]
    pub struct BaseAddresses;

    impl BaseAddresses {
        pub fn set_eh_frame(self, _address: u64) -> Self {
            self
        }
    }

    pub struct UnwindContext<T>(std::marker::PhantomData<T>);

    impl<T: ReaderOffset> UnwindContext<T> {
        #[allow(clippy::new_without_default)]
        pub fn new() -> Self {
            UnwindContext(std::marker::PhantomData)
        }
    }

    pub trait UnwindSection<R: Reader>: Sized {
        type Offset: From<R::Offset>;

        fn reader(&self) -> &R;

        fn entries(&self, _bases: &BaseAddresses) -> CfiEntriesIter<R> {
            CfiEntriesIter { reader: self.reader().clone(), given: 0 }
        }

        fn cie_from_offset(&self, _bases: &BaseAddresses, _offset: Self::Offset) -> Result<Cie> {
            Err(Error::Other)
        }

        fn fde_from_offset<F>(
            &self,
            _bases: &BaseAddresses,
            _offset: Self::Offset,
            _get_cie: F,
        ) -> Result<FrameDescriptionEntry<R>>
        where
            F: FnMut(&Self, &BaseAddresses, Self::Offset) -> Result<Cie>,
        {
            Err(Error::Other)
        }
    }

    macro_rules! section {
        ($name:ident) => {
            pub struct $name<R: Reader>(R);

            impl<'a> $name<Entries<'a>> {
                pub fn new(data: &'a [Fde], _endian: Endian) -> Self {
                    $name(Entries(data))
                }
            }

            impl<R: Reader> $name<R> {
                pub fn set_address_size(&mut self, _size: u8) {}

                pub fn set_vendor(&mut self, _vendor: Vendor) {}
            }

            impl<R: Reader> UnwindSection<R> for $name<R> {
                type Offset = R::Offset;

                fn reader(&self) -> &R {
                    &self.0
                }
            }
        };
    }

    section!(EhFrame);
    section!(DebugFrame);

    pub struct CfiEntriesIter<R: Reader> {
        reader: R,
        given: usize,
    }

    impl<R: Reader> CfiEntriesIter<R> {
        #[allow(clippy::should_implement_trait)]
        pub fn next(&mut self) -> Result<Option<CieOrFde<R>>> {
            let at = self.given;
            if at == self.reader.entries().len() {
                return Ok(None);
            }
            self.given += 1;
            Ok(Some(CieOrFde::Fde(PartialFrameDescriptionEntry { reader: self.reader.clone(), at })))
        }
    }

    pub enum CieOrFde<R: Reader> {
        Cie(Cie),
        Fde(PartialFrameDescriptionEntry<R>),
    }

    #[derive(Clone, Copy)]
    pub struct Cie(Register);

    impl Cie {
        pub fn return_address_register(&self) -> Register {
            self.0
        }
    }

    /// An entry by its place among those of the reader.
    pub struct PartialFrameDescriptionEntry<R: Reader> {
        reader: R,
        at: usize,
    }

    impl<R: Reader> PartialFrameDescriptionEntry<R> {
        pub fn parse<S, O, F>(&self, _get_cie: F) -> Result<FrameDescriptionEntry<R>>
        where
            F: FnMut(&S, &BaseAddresses, O) -> Result<Cie>,
        {
            let cie = Cie(self.reader.entries()[self.at].return_register);
            Ok(FrameDescriptionEntry { cie, reader: self.reader.clone(), at: self.at })
        }
    }

    pub struct FrameDescriptionEntry<R: Reader> {
        cie: Cie,
        reader: R,
        at: usize,
    }

    impl<R: Reader> FrameDescriptionEntry<R> {
        pub fn initial_address(&self) -> u64 {
            self.reader.entries()[self.at].initial_address
        }

        pub fn cie(&self) -> &Cie {
            &self.cie
        }

        pub fn rows<S>(
            &self,
            _section: &S,
            _bases: &BaseAddresses,
            _ctx: &mut UnwindContext<R::Offset>,
        ) -> Result<UnwindTable<'_, R::Offset>> {
            Ok(UnwindTable { rows: &self.reader.entries()[self.at].rows, given: 0 })
        }
    }

    pub struct UnwindTable<'a, T: ReaderOffset> {
        rows: &'a [UnwindTableRow<T>],
        given: usize,
    }

    impl<'a, T: ReaderOffset> UnwindTable<'a, T> {
        pub fn next_row(&mut self) -> Result<Option<&'a UnwindTableRow<T>>> {
            let row = self.rows.get(self.given);
            self.given += 1;
            Ok(row)
        }
    }
}
