//! "Removing, aborting, setting": the removal of a stretch of time, and the abort.

use crate::refusal::{Cause, Fate, Refusal};
use crate::seconds::{End, Seconds};
use crate::state::{Frame, Maybe, Mode, State, FRAME_PLACES};
use crate::store::{check_fates, take_out};
use crate::trace::{Branch, Trace};
use crate::well_formed::{check, check_traced};

/// Removes the frames presented from `start` up to the first random access point at or after
/// `end`, track by track, and those that follow them; gives the count of fate lines.
pub fn remove(
    state: &mut State,
    start: f64,
    end: f64,
    fates: &mut [Fate],
) -> Result<usize, Refusal> {
    remove_traced(state, start, end, fates, &mut ())
}

/// [`remove`], telling its branches.
pub fn remove_traced<T: Trace>(
    state: &mut State,
    start: f64,
    end: f64,
    fates: &mut [Fate],
    trace: &mut T,
) -> Result<usize, Refusal> {
    check_traced(state, trace)?;
    check_fates(fates, FRAME_PLACES)?;
    let start = Seconds::given(start)?.micros;
    let end = End::given(end)?;
    if start < 0 || !end.is_after(start) {
        return Err(Refusal::Order);
    }
    trace.reach(Branch::RemoveBegins);
    if !end.bounded {
        trace.reach(Branch::RemoveUnbounded);
    }
    if state.head.group == u32::MAX && begins_group(*state, start, end) {
        trace.reach(Branch::RemoveGroupsGone);
        return Err(Refusal::NumbersGone);
    }

    let (count, last_lost) = remove_from_all(state, start, end, fates, trace);
    if count == 0 {
        trace.reach(Branch::RemoveNone);
    }
    if let Some((pts, cause)) = last_lost {
        trace.reach(match cause {
            Cause::Follows => Branch::RemoveLosesFollowing,
            _ => Branch::RemoveLosesTaken,
        });
        state.head.break_group(pts, trace);
        state.head.group += 1;
    }
    Ok(count)
}

/// Whether a removal takes a last decode time, as a copy of the state tells.
fn begins_group(mut state: State, start: i64, end: End) -> bool {
    let mut lines = [Fate::default(); FRAME_PLACES];
    let (_, last_lost) = remove_from_all(&mut state, start, end, &mut lines, &mut ());
    last_lost.is_some()
}

/// Presentation time and cause of the first frame lost, in the order of the fate lines, whose decode
/// time is its track's last.
type LastLost = Option<(i64, Cause)>;

/// Removes from all tracks, one after the other: gives the count of fate lines, and the frame for
/// which the group breaks.
fn remove_from_all<T: Trace>(
    state: &mut State,
    start: i64,
    end: End,
    fates: &mut [Fate],
    trace: &mut T,
) -> (usize, LastLost) {
    let mut count = 0;
    let mut last_lost = None;
    for track in state.head.track_numbers() {
        let lines = &mut fates[count..];
        let (lost, last) = remove_from(state, track, start, end.micros(), lines, trace);
        count += lost;
        last_lost = last_lost.or(last);
    }
    (count, last_lost)
}

/// Removes from one track.
fn remove_from<T: Trace>(
    state: &mut State,
    track: u32,
    start: i64,
    end: Option<i64>,
    fates: &mut [Fate],
    trace: &mut T,
) -> (usize, LastLost) {
    let last_decode = state.head.tracks[track as usize - 1].last_decode.get();
    let places = state.places_of(track);
    let frames = &mut state.frames[places.clone()];
    let taken = start..far_edge(frames, end, trace);
    let mut count = 0;
    let mut last_lost = None;
    let kept = take_out(
        frames,
        &taken,
        Cause::Removed,
        trace,
        |frame, cause, _trace| {
            fates[count] = cause.line(frame.number);
            count += 1;
            if last_lost.is_none() && last_decode == Some(frame.dts) {
                last_lost = Some((frame.pts, cause));
            }
        },
    );
    state.close(places.start + kept..places.end);
    (count, last_lost)
}

/// The smallest presentation time of a flagged frame at or after the end; without one, a time
/// that no frame reaches.
fn far_edge<T: Trace>(frames: &[Frame], end: Option<i64>, trace: &mut T) -> i64 {
    let edge = end.and_then(|end| {
        frames
            .iter()
            .filter(|frame| frame.flagged && frame.pts >= end)
            .map(|frame| frame.pts)
            .min()
    });
    trace.reach(match edge {
        Some(_) => Branch::RemoveEdge,
        None => Branch::RemoveNoEdge,
    });
    edge.unwrap_or(i64::MAX)
}

/// Ends the group, also one in which nothing is set, and opens the window; the offset stays.
pub fn abort(state: &mut State) -> Result<(), Refusal> {
    check(state)?;
    let head = &mut state.head;
    head.group = head.next_group()?;
    head.unset_everywhere();
    if head.mode == Mode::Sequence {
        head.group_start = Maybe::of(head.group_end);
    }
    head.settings.window_start = Seconds::default();
    head.settings.window_end = End::default();
    Ok(())
}
