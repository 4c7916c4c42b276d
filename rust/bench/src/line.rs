//! The lines whose reports are timed: their frames, decoded one after the other, are shown in one order
//! or another, with gaps between them or without.

use second::Offered;

/// From a frame to the next, 40 ms.
const STEP: u32 = 40_000;

/// What a frame lasts that does not reach the next, though it is within a break of it.
const SHORT: u32 = 30_000;

/// The frames of a group that is reversed.
const GROUP: usize = 16;

/// The order in which frames are shown.
#[derive(Clone, Copy, Debug, PartialEq, Eq)]
pub enum Order {
    /// As they are decoded.
    Decoded,
    /// Each picture after the two that refer to it.
    BFrames,
    /// The last first, in each group of 16.
    GroupsReversed,
    /// The last first.
    Reversed,
}

impl Order {
    /// The place in which a frame is shown that is decoded in this place of so many.
    fn shown(self, place: usize, places: usize) -> usize {
        match self {
            Self::Decoded => place,
            Self::BFrames => place - place % 4 + [0, 3, 1, 2][place % 4],
            Self::GroupsReversed => place - place % GROUP + (GROUP - 1 - place % GROUP),
            Self::Reversed => places - 1 - place,
        }
    }
}

/// A line.
#[derive(Clone, Copy, Debug, PartialEq, Eq)]
pub struct Line {
    /// The order in which its frames are shown.
    pub order: Order,
    /// Whether each frame is a range of its own; else they are one.
    pub gaps: bool,
}

impl Line {
    /// How many ranges so many frames of a track are.
    pub fn ranges(self, frames: usize) -> usize {
        match self.gaps {
            true => frames,
            false => 1,
        }
    }

    /// The frames of a buffer whose tracks have so many each, and take turns.
    pub fn frames(self, tracks: u32, each: usize) -> impl Iterator<Item = Offered> {
        let time = |place: usize| place as i64 * i64::from(STEP);
        let frame = move |place: usize, track: u32| Offered {
            track,
            pts: time(self.order.shown(place, each)),
            dts: time(place),
            duration: if self.gaps { SHORT } else { STEP },
            flagged: place == 0,
        };
        (0..each).flat_map(move |place| (1..=tracks).map(move |track| frame(place, track)))
    }
}
