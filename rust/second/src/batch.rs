//! Document 02, No. 2, "A whole segment's frames in one call": frames appended one by one, in list
//! order, until one is refused.

use crate::append::append_tested;
use crate::refusal::{Fate, Refusal};
use crate::segment::Row;
use crate::state::{Offered, State, FRAME_PLACES};
use crate::store::{check_fates, Latest};
use crate::trace::{BatchBranch, Trace};
use crate::well_formed::check_traced;

/// The most frames of a batch.
pub const BATCH_FRAMES: usize = 64;

/// The lines that the fate list of a batch needs: enough for every frame stored and every frame
/// offered, of which none has more than one.
pub const BATCH_LINES: usize = FRAME_PLACES + BATCH_FRAMES;

/// What became of a batch.
#[derive(Clone, Copy, Debug, Default, PartialEq, Eq)]
pub struct Batch {
    /// How many frames were accepted.
    pub accepted: usize,
    /// The refusal of the frame after these, if there is one.
    pub stop: Option<Refusal>,
    /// How many fate lines the accepted frames have written.
    pub lines: usize,
}

/// Appends frames, each of which is a row that [`list_segment`](crate::list_segment) can write. The
/// first that is refused stops it; that one changes nothing, and those before it stay.
pub fn append_batch(
    state: &mut State,
    frames: &[Row],
    fates: &mut [Fate],
) -> Result<Batch, Refusal> {
    append_batch_traced(state, frames, fates, &mut ())
}

/// [`append_batch`], telling its branches.
pub fn append_batch_traced<T: Trace>(
    state: &mut State,
    frames: &[Row],
    fates: &mut [Fate],
    trace: &mut T,
) -> Result<Batch, Refusal> {
    check_traced(state, trace)?;
    if frames.len() > BATCH_FRAMES {
        return Err(Refusal::LentSize);
    }
    check_fates(fates, BATCH_LINES)?;
    trace.batch(BatchBranch::Begins);

    // An append leaves a well-formed state well-formed, so the test above serves for all of them.
    let mut latest = Latest::of(state);
    let mut batch = Batch::default();
    for row in frames {
        let offered = offered(row, trace);
        let lines = &mut fates[batch.lines..];
        match append_tested(state, &offered, &mut latest, lines, trace) {
            Ok(count) => {
                batch.accepted += 1;
                batch.lines += count;
            }
            Err(refusal) => {
                trace.batch(BatchBranch::Stopped);
                batch.stop = Some(refusal);
                return Ok(batch);
            }
        }
    }
    trace.batch(BatchBranch::Whole);
    Ok(batch)
}

/// The frame that a row offers; its size does not matter to the buffer. A row has room for numbers
/// that an offered frame has not. They are outside the frame's limits in any case, so they are
/// read as others that are: no buffer has a track 0 (refusal 3), and no frame lasts 0 (refusal 4).
fn offered<T: Trace>(row: &Row, trace: &mut T) -> Offered {
    let [track, pts, dts, duration, flag, _size] = *row;
    let mut within = |number: i64, branch| {
        u32::try_from(number).unwrap_or_else(|_| {
            trace.batch(branch);
            0
        })
    };
    let track = within(track, BatchBranch::RowTrack);
    let duration = within(duration, BatchBranch::RowDuration);
    let flag_known = matches!(flag, 0 | 1);
    if !flag_known {
        trace.batch(BatchBranch::RowFlag);
    }
    Offered {
        track,
        pts,
        dts,
        duration: if flag_known { duration } else { 0 },
        flagged: flag == 1,
    }
}
