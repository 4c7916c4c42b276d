//! Document 02, No. 6, "Where to start decoding": the frame that a track shows at an instant, and the
//! random access point from which on its group is decoded up to it.

use crate::refusal::Refusal;
use crate::state::{Frame, State};
use crate::trace::{SeekBranch, Trace};
use crate::well_formed::check_traced;

/// Where to start decoding.
#[derive(Clone, Copy, Debug, PartialEq, Eq)]
pub struct Start {
    /// The number of the frame that is shown.
    pub target: u32,
    /// The number of the flagged frame to start from.
    pub flagged: u32,
    /// How many frames are decoded, both of these counted.
    pub count: usize,
}

/// Where to start decoding so that a track shows what it has at an instant.
pub fn seek(state: &State, track: u32, instant: i64) -> Result<Start, Refusal> {
    seek_traced(state, track, instant, &mut ())
}

/// [`seek`], telling its branches.
pub fn seek_traced<T: Trace>(
    state: &State,
    track: u32,
    instant: i64,
    trace: &mut T,
) -> Result<Start, Refusal> {
    check_traced(state, trace)?;
    state.head.track_index(track)?;
    let frames = state.frames_of(track);
    let Some(place) = target(frames, instant, trace) else {
        trace.seek(SeekBranch::NoneCovers);
        return Err(Refusal::NoStart);
    };
    walk_back(&frames[..=place], trace)
}

/// The place of the frame to show: of those that cover the instant the one with the greatest
/// presentation time, then the greatest number.
fn target<T: Trace>(frames: &[Frame], instant: i64, trace: &mut T) -> Option<usize> {
    let covers = |frame: &Frame| (frame.pts..frame.end()).contains(&instant);
    let covering = (0..frames.len()).filter(|&place| covers(&frames[place]));
    covering.reduce(
        |former, next| match former_shown(&frames[former], &frames[next], trace) {
            true => former,
            false => next,
        },
    )
}

/// Whether of two frames that cover an instant, and stand in store order, the former is to be shown.
fn former_shown<T: Trace>(former: &Frame, next: &Frame, trace: &mut T) -> bool {
    let shown = (former.pts, former.number) > (next.pts, next.number);
    trace.seek(match (former.pts == next.pts, shown) {
        (false, false) => SeekBranch::NextPresentedLater,
        (false, true) => SeekBranch::FormerPresentedLater,
        (true, false) => SeekBranch::NextNumberedHigher,
        (true, true) => SeekBranch::FormerNumberedHigher,
    });
    shown
}

/// From the last of a track's frames back to the nearest flagged one of its group. Frames of other
/// groups are neither decoded nor started from.
fn walk_back<T: Trace>(frames: &[Frame], trace: &mut T) -> Result<Start, Refusal> {
    let target = frames[frames.len() - 1];
    let mut count = 0;
    for frame in frames.iter().rev() {
        if frame.group != target.group {
            trace.seek(match frame.flagged {
                true => SeekBranch::PastPoint,
                false => SeekBranch::PastOther,
            });
            continue;
        }
        count += 1;
        if frame.flagged {
            trace.seek(match count {
                1 => SeekBranch::TargetFlagged,
                _ => SeekBranch::WalksBack,
            });
            return Ok(Start {
                target: target.number,
                flagged: frame.number,
                count,
            });
        }
    }
    trace.seek(SeekBranch::NoPoint);
    Err(Refusal::NoStart)
}
