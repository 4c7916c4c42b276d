//! Segments that come in lumps: the reader and the buffer that go from call to call.

use galumper::{ListedFrame, LumpReader};
use script::{Lump, Proved, Subject};

/// What is kept of a segment between its lumps.
#[derive(Clone, Debug, Default)]
pub(crate) struct Lumps {
    reader: LumpReader,
    buffer: Vec<u8>,
}

impl Lumps {
    /// Takes a lump. What it lists is in no book, as nothing is appended by it.
    pub(crate) fn take(&mut self, lump: &Lump) -> Result<(), u32> {
        let mut list = vec![ListedFrame::default(); lump.places];
        let length = self.buffer.len().max(lump.buffer);
        self.buffer.resize(length, 0);
        let buffer = &mut self.buffer[..lump.buffer];
        let reader = &mut self.reader;
        let taken = Proved.take_lump(reader, lump.of, buffer, &lump.bytes, lump.last, &mut list);
        taken.map(drop)
    }

    /// From here the reader is a fresh one.
    pub(crate) fn begin_anew(&mut self) {
        self.reader = LumpReader::default();
    }
}
