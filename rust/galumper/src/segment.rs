//! Reading a segment of the recorder, fragmented MP4 by ISO/IEC 14496-12: the frames of one track,
//! listed with their sizes.

use crate::calls::counted;
use crate::foreign;
use crate::listing::{ListedFrame, SegmentTrack};
use crate::names::Refusal;

/// Lists a track's frames with their sizes, in file order, from the one movie fragment of a
/// segment; gives their count. A segment that has none of this track lists nothing.
///
/// A media time is converted to microseconds and rounded down, also below zero. A frame's end is
/// converted the same way, and its duration is the difference.
///
/// # Errors
///
/// The first of these that applies: [`Refusal::Malformed`], [`Refusal::FrameLimits`],
/// [`Refusal::ShortList`].
pub fn list_segment(
    of: SegmentTrack,
    segment: &[u8],
    list: &mut [ListedFrame],
) -> Result<usize, Refusal> {
    let (frames, places) = (list.as_mut_ptr(), list.len());
    // SAFETY: pointers and lengths are those of slices, and the function reads the segment.
    counted(unsafe {
        foreign::galumper_lent_list_segment(of, segment.as_ptr(), segment.len(), frames, places)
    })
}
