//! Stands for the crate `symbolic-common`: its `types.rs` unchanged, and a view of bytes.

#![allow(unexpected_cfgs)]

include!(concat!(env!("OUT_DIR"), "/source.rs"));

pub use types::{Arch, CpuFamily, UnknownArchError};

/// Owned or lent bytes.
pub struct ByteView<'a>(std::borrow::Cow<'a, [u8]>);

impl ByteView<'static> {
    pub fn from_vec(bytes: Vec<u8>) -> Self {
        ByteView(bytes.into())
    }
}

impl std::ops::Deref for ByteView<'_> {
    type Target = [u8];

    fn deref(&self) -> &[u8] {
        &self.0
    }
}
