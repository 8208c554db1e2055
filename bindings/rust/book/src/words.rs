//! Bodies word by word. Words that are not read go into a list of their own, and come back from it.

use crate::Fault;

pub(crate) struct Reader<'a> {
    rest: &'a [u32],
    unused: Vec<u32>,
}

impl<'a> Reader<'a> {
    pub fn new(body: &'a [u32]) -> Self {
        Reader { rest: body, unused: Vec::new() }
    }

    pub fn word(&mut self) -> Result<u32, Fault> {
        let (&first, rest) = self.rest.split_first().ok_or(Fault::layout("the body ends too early"))?;
        self.rest = rest;
        Ok(first)
    }

    /// Two words, low first.
    pub fn wide(&mut self) -> Result<u64, Fault> {
        let low = self.word()?;
        let high = self.word()?;
        Ok(u64::from(high) << 32 | u64::from(low))
    }

    pub fn signed(&mut self) -> Result<i64, Fault> {
        Ok(self.wide()? as i64)
    }

    pub fn small<T: TryFrom<u32>>(&mut self, what: &'static str) -> Result<T, Fault> {
        T::try_from(self.word()?).map_err(|_| Fault::layout(what))
    }

    /// A word that is 0 or 1.
    pub fn flag(&mut self, what: &'static str) -> Result<bool, Fault> {
        let word = self.word()?;
        Fault::layout_unless(word <= 1, what)?;
        Ok(word == 1)
    }

    pub fn unused(&mut self, count: usize) -> Result<(), Fault> {
        for _ in 0..count {
            let word = self.word()?;
            self.unused.push(word);
        }
        Ok(())
    }

    /// As many things as a count says. A count beyond the body ends early, so none is too large to try.
    pub fn many<T>(&mut self, count: u32, mut one: impl FnMut(&mut Self) -> Result<T, Fault>) -> Result<Vec<T>, Fault> {
        (0..count).map(|_| one(self)).collect()
    }

    /// The unused words, where the whole body is read.
    pub fn end(self) -> Result<Vec<u32>, Fault> {
        Fault::layout_unless(self.rest.is_empty(), "the body has more words than its counts demand")?;
        Ok(self.unused)
    }
}

pub(crate) struct Writer<'a> {
    pub words: Vec<u32>,
    unused: std::slice::Iter<'a, u32>,
}

impl<'a> Writer<'a> {
    pub fn new(unused: &'a [u32]) -> Self {
        Writer { words: Vec::new(), unused: unused.iter() }
    }

    pub fn word(&mut self, word: impl Into<u32>) {
        self.words.push(word.into());
    }

    pub fn wide(&mut self, number: u64) {
        self.words.extend([number as u32, (number >> 32) as u32]);
    }

    pub fn signed(&mut self, number: i64) {
        self.wide(number as u64);
    }

    /// A count whose bound has been checked.
    pub fn count(&mut self, count: usize) {
        self.words.push(count as u32);
    }

    pub fn unused(&mut self, count: usize) {
        for _ in 0..count {
            self.words.push(self.unused.next().copied().unwrap_or(0));
        }
    }
}
