//! The store: a track's frames, putting one in, taking some out with those that follow them, and how
//! late a track's frames are presented.

use std::ops::Range;

use crate::refusal::{Cause, Fate, Refusal};
use crate::state::{Frame, State, TRACK_PLACES};
use crate::trace::Trace;
use crate::walk::Walks;

/// Refusal 2, by a call that needs so many lines.
pub(crate) fn check_fates(fates: &[Fate], lines: usize) -> Result<(), Refusal> {
    if fates.len() < lines {
        return Err(Refusal::ShortFates);
    }
    Ok(())
}

impl State {
    /// The frames of all tracks, in store order.
    pub(crate) fn stored(&self) -> &[Frame] {
        &self.frames[..self.frame_count]
    }

    /// The places of a track's frames: one stretch, as the store is sorted by track first.
    pub(crate) fn places_of(&self, track: u32) -> Range<usize> {
        let stored = self.stored();
        let start = stored.partition_point(|frame| frame.track < track);
        let end = stored.partition_point(|frame| frame.track <= track);
        start..end
    }

    /// A track's frames, in store order.
    pub(crate) fn frames_of(&self, track: u32) -> &[Frame] {
        &self.frames[self.places_of(track)]
    }

    /// Puts a frame in, after its equals in decode time, as its number is the highest; gives its
    /// place. There must be room.
    pub(crate) fn insert(&mut self, frame: Frame) -> usize {
        let place = self
            .stored()
            .partition_point(|old| (old.track, old.dts) <= (frame.track, frame.dts));
        self.frames.copy_within(place..self.frame_count, place + 1);
        self.frames[place] = frame;
        self.frame_count += 1;
        place
    }

    /// Closes places that no longer hold a frame, and leaves zeros at the end.
    pub(crate) fn close(&mut self, places: Range<usize>) {
        if places.is_empty() {
            return;
        }
        let count = self.frame_count - places.len();
        self.frames
            .copy_within(places.end..self.frame_count, places.start);
        self.frames[count..self.frame_count].fill(Frame::default());
        self.frame_count = count;
    }
}

/// For each track a time after which none of its frames is presented. A stretch that starts after
/// it overlaps none of them, which then need not be searched: a batch, whose frames mostly follow
/// those stored, notes these times in one pass, instead of one for each frame.
pub(crate) struct Latest([i64; TRACK_PLACES]);

impl Latest {
    /// Nothing is known, and every stretch has to be searched for.
    pub(crate) fn unknown() -> Self {
        Self([i64::MAX; TRACK_PLACES])
    }

    /// The greatest presentation time of each track.
    pub(crate) fn of(state: &State) -> Self {
        let mut latest = Self([i64::MIN; TRACK_PLACES]);
        for frame in state.stored() {
            latest.note(frame);
        }
        latest
    }

    /// Takes a frame that is stored into account. One that goes changes nothing: what is left is
    /// not presented later for that.
    pub(crate) fn note(&mut self, frame: &Frame) {
        let latest = &mut self.0[frame.track as usize - 1];
        *latest = frame.pts.max(*latest);
    }

    /// Whether all frames of a track are known to be presented before a stretch.
    pub(crate) fn precedes(&self, track: u32, stretch: &Range<i64>) -> bool {
        self.0[track as usize - 1] < stretch.start
    }
}

/// Takes those of a track's frames out that are presented in `taken`, by `cause`, and with them,
/// by cause 5, the unflagged frames after one of them of their own group and before the next flagged
/// frame of that group that stays (step 8). Each goes to `lost`; those that stay are moved to the
/// front and counted.
pub(crate) fn take_out<T: Trace>(
    frames: &mut [Frame],
    taken: &Range<i64>,
    cause: Cause,
    trace: &mut T,
    mut lost: impl FnMut(&Frame, Cause, &mut T),
) -> usize {
    let Some(first) = frames.iter().position(|frame| taken.contains(&frame.pts)) else {
        return frames.len();
    };
    let mut walks = Walks::before(&frames[first..], first);
    let mut kept = first;
    for place in first..frames.len() {
        let frame = &frames[place];
        let group = walks.group_of(frame);
        let own = taken.contains(&frame.pts);
        if own || walks.lead_to(frame, group, trace) {
            walks.take(group, place);
            lost(frame, if own { cause } else { Cause::Follows }, trace);
        } else {
            walks.leave(frame, group, place);
            frames[kept] = frames[place];
            kept += 1;
        }
    }
    kept
}
