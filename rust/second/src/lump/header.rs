//! A box's header, which a lump may cut.

use crate::segment::boxes::{Fields, Kind, HEADER, LARGE, LARGE_HEADER};

/// The bytes of a size and a type.
pub(super) const SIZE_AND_TYPE: usize = HEADER as usize;

/// The bytes of the longest header.
const LONGEST: usize = LARGE_HEADER as usize;

/// A header of which only the first bytes have come, none of them between two boxes.
#[derive(Clone, Copy, Debug, Default, PartialEq, Eq)]
pub struct CutHeader {
    /// Its bytes, and zeros after them.
    pub bytes: [u8; LONGEST],
    /// How many have come.
    pub count: usize,
}

impl CutHeader {
    /// The same with the bytes that come next, as many as a header has at most.
    pub(super) fn with(mut self, next: &[u8]) -> Self {
        let free = &mut self.bytes[self.count..];
        let length = free.len().min(next.len());
        free[..length].copy_from_slice(&next[..length]);
        self.count += length;
        self
    }

    /// What the header says, once all of it has come.
    pub(super) fn read(&self) -> Option<Header> {
        let mut fields = Fields(&self.bytes[..self.count]);
        let size = fields.u32()?;
        let kind = fields.bytes()?;
        let (size, length) = match size {
            LARGE => (fields.u64()?, LARGE_HEADER),
            _ => (u64::from(size), HEADER),
        };
        Some(Header { kind, size, length })
    }
}

/// A header that is whole.
#[derive(Clone, Copy)]
pub(super) struct Header {
    /// The type of the box.
    pub(super) kind: Kind,
    /// The size of the box.
    pub(super) size: u64,
    /// The bytes of the header itself.
    pub(super) length: u64,
}

impl Header {
    /// Whether a 64-bit size follows the type.
    pub(super) fn is_large(&self) -> bool {
        self.length == LARGE_HEADER
    }
}
