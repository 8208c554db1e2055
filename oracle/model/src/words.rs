//! Reading a body word by word. `None` anywhere is a broken layout, refusal 4.

pub struct Words<'a>(pub &'a [u32]);

impl Words<'_> {
    pub fn any(&mut self) -> Option<u32> {
        let (&first, rest) = self.0.split_first()?;
        self.0 = rest;
        Some(first)
    }

    /// A word from 0 to `most`.
    pub fn upto(&mut self, most: u32) -> Option<u32> {
        self.any().filter(|&w| w <= most)
    }

    /// A word that is 0 or 1.
    pub fn flag(&mut self) -> Option<bool> {
        Some(self.upto(1)? == 1)
    }

    /// Two words, low first.
    pub fn wide(&mut self) -> Option<u64> {
        let low = self.any()?;
        let high = self.any()?;
        Some(u64::from(high) << 32 | u64::from(low))
    }

    /// Two words, signed.
    pub fn signed(&mut self) -> Option<i64> {
        Some(self.wide()? as i64)
    }

    /// `n` things in a row.
    pub fn many<T>(&mut self, n: u32, mut one: impl FnMut(&mut Self) -> Option<T>) -> Option<Vec<T>> {
        (0..n).map(|_| one(self)).collect()
    }

    /// Nothing is left over.
    pub fn end(&self) -> Option<()> {
        self.0.is_empty().then_some(())
    }
}
