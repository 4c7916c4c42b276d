//! A whole segment's frames in one call: the rows that a segment lists, appended in list order up
//! to the first that is refused.

use crate::buffer::Buffer;
use crate::calls::done;
use crate::foreign;
use crate::listing::ListedFrame;
use crate::lists::Fate;
use crate::names::Refusal;

/// The most frames of a batch.
pub const BATCH: usize = 64;

/// The lines that the fate list of a batch needs: a store's, and one for each of its frames.
pub const BATCH_FATES: usize = 1088;

/// How far a batch came.
#[derive(Clone, Copy, Debug, PartialEq, Eq)]
pub struct Batch {
    /// How many frames were accepted: those at the start of the list.
    pub accepted: usize,
    /// Why the frame after them was refused; none where all were accepted.
    pub stop: Option<Refusal>,
    /// The count of fate lines.
    pub lines: usize,
}

impl Buffer {
    /// Appends the frames of a list in its order, at most [`BATCH`] rows as
    /// [`list_segment`](crate::list_segment) writes them, each as [`Buffer::append`] does. Their
    /// fate lines follow each other in `fates`, which has [`BATCH_FATES`] at least.
    ///
    /// It stops at the first frame that an append refuses, by [`Refusal::NoTrack`],
    /// [`Refusal::FrameLimits`], [`Refusal::LastNumber`], [`Refusal::ResultLimits`] or
    /// [`Refusal::Full`], in the order of an append. That is no error: the frame alone changes
    /// nothing, the frames accepted before it stay, and the rows from `accepted` on may be offered
    /// again.
    ///
    /// Any row may be offered. A track that no `u32` holds is one that the buffer does not have, and
    /// such a duration is outside its limit, as is a flag that is neither 0 nor 1. The size is not
    /// looked at.
    ///
    /// # Errors
    ///
    /// The first of these that applies, also for an empty list: [`Refusal::IllFormed`],
    /// [`Refusal::LentSize`], [`Refusal::ShortFates`].
    pub fn append_batch(
        &mut self,
        frames: &[ListedFrame],
        fates: &mut [Fate],
    ) -> Result<Batch, Refusal> {
        let Self { head, times, tags } = self;
        let (rows, count) = (frames.as_ptr(), frames.len());
        let (lines, length) = (fates.as_mut_ptr(), fates.len());
        // SAFETY: pointers and lengths are those of slices, and the function reads the rows.
        let batched = unsafe {
            foreign::galumper_lent_append_batch(*head, rows, count, times, tags, lines, length)
        };
        let answer = batched.answer;
        done(answer.refusal)?;
        self.head = batched.head;
        Ok(Batch {
            accepted: answer.accepted,
            stop: done(answer.stop).err(),
            lines: answer.count,
        })
    }
}
