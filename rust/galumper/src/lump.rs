//! A segment of the recorder that comes in lumps, cut anywhere: a lent buffer keeps the body of its
//! movie fragment, and at the end its frames are listed as of the whole.

use crate::calls::counted;
use crate::foreign;
use crate::listing::{ListedFrame, SegmentTrack};
use crate::names::Refusal;
use crate::reader::LumpReader;

/// The most bytes of a lump, the most of a movie fragment box in a segment that comes in lumps, and
/// the fewest of a lump buffer.
pub const LUMP: usize = 65_536;

impl LumpReader {
    /// Takes a lump of a segment that comes cut anywhere: at most [`LUMP`] bytes, or none. Reader and
    /// buffer are as the call before left them, at first a fresh reader and any bytes. The buffer has
    /// [`LUMP`] bytes at least; those past the first so many are never touched.
    ///
    /// With `last` it is told that no more comes: the frames are listed as
    /// [`list_segment`](crate::list_segment) lists those of the whole segment, the reader is fresh, and
    /// the buffer is not written to. Gives the count of frames. Until then the count is 0, nothing is
    /// listed, and neither `of` nor the list is looked at.
    ///
    /// A call that is refused has taken no byte of its lump, and changed nothing: after
    /// [`Refusal::ShortList`] it may be made again with a longer list.
    ///
    /// # Errors
    ///
    /// The first of these that applies: [`Refusal::IllFormed`], [`Refusal::LentSize`],
    /// [`Refusal::LargeFragment`] with the lump that has the last byte of the box's size; and with the
    /// end alone [`Refusal::Malformed`], [`Refusal::FrameLimits`], [`Refusal::ShortList`].
    pub fn take_lump(
        &mut self,
        of: SegmentTrack,
        buffer: &mut [u8],
        lump: &[u8],
        last: bool,
        list: &mut [ListedFrame],
    ) -> Result<usize, Refusal> {
        let lumped = match last {
            true => self.ended(of, buffer, lump, list),
            false => self.moved(buffer, lump),
        };
        let count = counted(lumped.answer)?;
        *self = lumped.reader;
        Ok(count)
    }

    fn moved(self, buffer: &mut [u8], lump: &[u8]) -> foreign::Lumped {
        let (bytes, size) = (buffer.as_mut_ptr(), buffer.len());
        let (start, length) = (lump.as_ptr(), lump.len());
        // SAFETY: pointers and lengths are those of slices, and the function reads the lump.
        unsafe { foreign::galumper_lent_take_lump(self, bytes, size, start, length) }
    }

    fn ended(
        self,
        of: SegmentTrack,
        buffer: &[u8],
        lump: &[u8],
        list: &mut [ListedFrame],
    ) -> foreign::Lumped {
        let (bytes, size) = (buffer.as_ptr(), buffer.len());
        let (start, length) = (lump.as_ptr(), lump.len());
        let (frames, places) = (list.as_mut_ptr(), list.len());
        // SAFETY: pointers and lengths are those of slices, and the function reads buffer and lump.
        unsafe {
            foreign::galumper_lent_take_last(self, of, bytes, size, start, length, frames, places)
        }
    }
}
