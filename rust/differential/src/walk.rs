//! The walk of a track's report as the request has it: frame by frame, in presentation order.

use second::{Frame, State};

/// A walk over a track's frames, with room for so many ranges.
#[derive(Clone, Copy, Debug)]
pub(crate) struct Walk {
    /// How many frames the track has.
    pub(crate) frames: usize,
    /// How many ranges there is room for.
    pub(crate) places: usize,
    /// How many ranges were begun.
    pub(crate) ranges: usize,
    /// How many frames were taken.
    pub(crate) taken: usize,
    /// Whether the frames are stored in another order than they are presented.
    pub(crate) reordered: bool,
    /// Whether the frame after the last that was taken is presented at the same time.
    pub(crate) tied: bool,
}

impl Walk {
    /// The walk over a track of a state.
    pub(crate) fn of(state: &State, track: u32, places: usize) -> Self {
        let stored = state.frames[..state.frame_count].iter();
        let mut frames: Vec<&Frame> = stored.filter(|frame| frame.track == track).collect();
        let reordered = !frames.is_sorted_by_key(|frame| frame.pts);
        frames.sort_by_key(|frame| frame.pts);
        let (mut ranges, mut taken, mut end) = (0, 0, i64::MIN);
        for frame in &frames {
            taken += 1;
            ranges += usize::from(frame.pts > end);
            if ranges > places {
                break;
            }
            end = end.max(frame.end());
        }
        let next = frames.get(taken);
        Self {
            frames: frames.len(),
            places,
            ranges,
            taken,
            reordered,
            tied: next.is_some_and(|next| next.pts == frames[taken - 1].pts),
        }
    }

    /// Whether it was left at a range too many.
    pub(crate) fn left(&self) -> bool {
        self.ranges > self.places
    }

    /// What a session answers to it.
    pub(crate) fn answer(&self) -> String {
        format!("ok taken {}", self.taken)
    }
}
