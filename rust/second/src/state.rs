//! "The buffer and its neighbours": what a buffer holds, and its creation.

use std::ops::RangeInclusive;

use crate::refusal::Refusal;
use crate::seconds::Settings;
use crate::trace::{Branch, Trace};

/// The store's places over all tracks, and the lines that a fate list needs.
pub const FRAME_PLACES: usize = 1024;

/// The most tracks of a buffer.
pub const TRACK_PLACES: usize = 4;

/// Kinds run from 0, video, to this, audio.
pub(crate) const LAST_KIND: u32 = 1;

/// A number that may be unset. The number has a place of its own, as the paper says what it must
/// hold while unset, and a state handed in can break that.
#[derive(Clone, Copy, Debug, Default, PartialEq, Eq)]
pub struct Maybe {
    /// Whether the number is set.
    pub set: bool,
    /// The number; zero while unset.
    pub value: i64,
}

impl Maybe {
    /// Unset, as it should be kept.
    pub const UNSET: Self = Self {
        set: false,
        value: 0,
    };

    /// Set to a number.
    pub const fn of(value: i64) -> Self {
        Self { set: true, value }
    }

    /// The number if it is set.
    pub fn get(self) -> Option<i64> {
        self.set.then_some(self.value)
    }
}

/// How appended frames find their place in time.
#[derive(Clone, Copy, Debug, Default, PartialEq, Eq)]
pub enum Mode {
    /// Times are as offered, plus the offset.
    #[default]
    Segments,
    /// Each group of frames is moved to follow the one before.
    Sequence,
}

/// A frame as it is offered.
#[derive(Clone, Copy, Debug, PartialEq, Eq)]
pub struct Offered {
    /// The track, from 1.
    pub track: u32,
    /// Presentation time, before the offset.
    pub pts: i64,
    /// Decode time, before the offset.
    pub dts: i64,
    /// Duration.
    pub duration: u32,
    /// Whether it is a random access point.
    pub flagged: bool,
}

/// A stored frame, its times after the offset. All zeros in a place that holds none.
#[derive(Clone, Copy, Debug, Default, PartialEq, Eq)]
pub struct Frame {
    /// The track, from 1.
    pub track: u32,
    /// The frame's number, from 1.
    pub number: u32,
    /// Presentation time.
    pub pts: i64,
    /// Decode time.
    pub dts: i64,
    /// Duration.
    pub duration: u32,
    /// Whether it is a random access point.
    pub flagged: bool,
    /// The number of the group in which it was stored.
    pub group: u32,
}

impl Frame {
    /// A frame as offered, moved by an offset.
    pub(crate) fn placed(offered: &Offered, offset: i64, number: u32, group: u32) -> Self {
        Self {
            track: offered.track,
            number,
            pts: offered.pts + offset,
            dts: offered.dts + offset,
            duration: offered.duration,
            flagged: offered.flagged,
            group,
        }
    }

    /// Where it stops covering the timeline.
    pub fn end(&self) -> i64 {
        self.pts + i64::from(self.duration)
    }
}

/// What a buffer remembers of one track. All zeros in a place that holds none.
#[derive(Clone, Copy, Debug, Default, PartialEq, Eq)]
pub struct Track {
    /// 0 for video, 1 for audio.
    pub kind: u32,
    /// Decode time of the last frame kept.
    pub last_decode: Maybe,
    /// Duration of the last frame kept.
    pub last_duration: Maybe,
    /// The highest end of the frames kept since the three were unset.
    pub highest_end: Maybe,
    /// Whether unflagged frames are dropped for now.
    pub need_random_access: bool,
}

/// Everything that a buffer remembers besides its frames: small enough to be copied, so that the
/// steps of an append work on a copy and a refusal just forgets it.
#[derive(Clone, Copy, Debug, Default, PartialEq, Eq)]
pub struct Head {
    /// How many of the track places are in use.
    pub track_count: usize,
    /// The track places.
    pub tracks: [Track; TRACK_PLACES],
    /// The last frame number given.
    pub last_number: u32,
    /// The number of the group, which the frames stored take. It rises whenever the three are unset
    /// on all tracks.
    pub group: u32,
    /// The mode.
    pub mode: Mode,
    /// Where the next group starts, if that is decided.
    pub group_start: Maybe,
    /// The end of the group so far.
    pub group_end: i64,
    /// Offset and window.
    pub settings: Settings,
}

impl Head {
    /// The numbers of the buffer's tracks.
    pub(crate) fn track_numbers(&self) -> RangeInclusive<u32> {
        1..=self.track_count as u32
    }

    /// Where a track's place is, or refusal 3.
    pub(crate) fn track_index(&self, track: u32) -> Result<usize, Refusal> {
        if !self.track_numbers().contains(&track) {
            return Err(Refusal::UnknownTrack);
        }
        Ok(track as usize - 1)
    }

    /// Need-random-access on for all tracks.
    pub(crate) fn need_everywhere(&mut self) {
        for track in &mut self.tracks[..self.track_count] {
            track.need_random_access = true;
        }
    }

    /// The number of the group after this one, or refusal 9.
    pub(crate) fn next_group(&self) -> Result<u32, Refusal> {
        self.group.checked_add(1).ok_or(Refusal::NumbersGone)
    }

    /// Unsets last decode time, last duration and highest end on all tracks, and turns
    /// need-random-access on for all. The group's number is left to the caller, who may have to
    /// refuse.
    pub(crate) fn unset_everywhere(&mut self) {
        for track in &mut self.tracks[..self.track_count] {
            *track = Track {
                kind: track.kind,
                need_random_access: true,
                ..Track::default()
            };
        }
    }

    /// What step 3 and a removal do when a group breaks at a presentation time.
    pub(crate) fn break_group<T: Trace>(&mut self, pts: i64, trace: &mut T) {
        match self.mode {
            Mode::Segments => {
                trace.reach(Branch::BreakInSegments);
                self.group_end = pts;
            }
            Mode::Sequence => {
                trace.reach(Branch::BreakInSequence);
                self.group_start = Maybe::of(self.group_end);
            }
        }
        self.unset_everywhere();
    }
}

/// A buffer.
#[derive(Clone, Copy, Debug, PartialEq, Eq)]
pub struct State {
    /// Everything besides the frames.
    pub head: Head,
    /// How many of the frame places are in use.
    pub frame_count: usize,
    /// The frame places, sorted by track, decode time and number.
    pub frames: [Frame; FRAME_PLACES],
}

/// A fresh buffer with a track for each kind, or refusal 11.
pub fn create(kinds: &[u32]) -> Result<State, Refusal> {
    let known = kinds.iter().all(|&kind| kind <= LAST_KIND);
    if !(1..=TRACK_PLACES).contains(&kinds.len()) || !known {
        return Err(Refusal::Creation);
    }
    let mut head = Head {
        track_count: kinds.len(),
        ..Head::default()
    };
    for (track, &kind) in head.tracks.iter_mut().zip(kinds) {
        track.kind = kind;
    }
    head.need_everywhere();
    Ok(State {
        head,
        frame_count: 0,
        frames: [Frame::default(); FRAME_PLACES],
    })
}
