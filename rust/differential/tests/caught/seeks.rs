//! Seeks that are wrong in one thing each.

use script::{Second, Subject};
use second::{Frame, Start, State};

/// What a seek does wrongly.
#[derive(Clone, Copy, Debug, PartialEq, Eq)]
pub enum WrongSeek {
    RefusesAll,
    SameAlways,
    RefusesATrackWithoutFrames,
    TrackBeforeState,
    NothingCoversIs3,
    EndCovers,
    StartDoesNotCover,
    CutsTheInstant,
    NearestBefore,
    AnyTrack,
    PresentedFirst,
    NumberedLowest,
    NumberBeforeTime,
    FirstInTheStore,
    LastInTheStore,
    AnyGroupsPoint,
    FirstPoint,
    LooksOn,
    LooksBeforeTheTarget,
    RefusesAFlaggedTarget,
    StartsWithoutAPoint,
    PicksAnotherWithAStart,
    ForgetsTheTarget,
    CountsOtherGroups,
    SwapsTheNumbers,
}

/// The refusal of a seek.
const NO_START: u32 = 15;

impl WrongSeek {
    pub const ALL: [Self; 25] = [
        Self::RefusesAll,
        Self::SameAlways,
        Self::RefusesATrackWithoutFrames,
        Self::TrackBeforeState,
        Self::NothingCoversIs3,
        Self::EndCovers,
        Self::StartDoesNotCover,
        Self::CutsTheInstant,
        Self::NearestBefore,
        Self::AnyTrack,
        Self::PresentedFirst,
        Self::NumberedLowest,
        Self::NumberBeforeTime,
        Self::FirstInTheStore,
        Self::LastInTheStore,
        Self::AnyGroupsPoint,
        Self::FirstPoint,
        Self::LooksOn,
        Self::LooksBeforeTheTarget,
        Self::RefusesAFlaggedTarget,
        Self::StartsWithoutAPoint,
        Self::PicksAnotherWithAStart,
        Self::ForgetsTheTarget,
        Self::CountsOtherGroups,
        Self::SwapsTheNumbers,
    ];

    /// The wrong answer.
    pub fn seek(self, state: &State, track: u32, instant: i64) -> Result<Start, u32> {
        let unknown = !(1..=state.head.track_count as u32).contains(&track);
        if self == Self::TrackBeforeState && unknown {
            return Err(3);
        }
        let right = Second::<()>::default().seek(state, track, instant);
        if matches!(right, Err(1 | 3)) {
            return right;
        }
        let stored = state.frames[..state.frame_count].iter();
        let on_track = stored.filter(|frame| frame.track == track || self == Self::AnyTrack);
        let frames: Vec<Frame> = on_track.copied().collect();
        let Some(place) = self.target(&frames, instant) else {
            return Err(match self {
                Self::NothingCoversIs3 => 3,
                Self::RefusesATrackWithoutFrames if frames.is_empty() => 3,
                _ => NO_START,
            });
        };
        let start = self.start(&frames, place)?;
        match self {
            Self::RefusesAll => Err(NO_START),
            Self::RefusesAFlaggedTarget if frames[place].flagged => Err(NO_START),
            _ => Ok(self.told(start)),
        }
    }

    /// The place of the frame that is picked.
    fn target(self, frames: &[Frame], instant: i64) -> Option<usize> {
        let covering = (0..frames.len()).filter(|&place| self.covers(&frames[place], instant));
        let has_start = |place: &usize| {
            self != Self::PicksAnotherWithAStart || Self::SameAlways.start(frames, *place).is_ok()
        };
        covering.filter(has_start).max_by_key(|&place| {
            let (pts, number) = (frames[place].pts, i64::from(frames[place].number));
            match self {
                Self::PresentedFirst => (-pts, number),
                Self::NumberedLowest => (pts, -number),
                Self::NumberBeforeTime => (number, pts),
                Self::FirstInTheStore => (-(place as i64), 0),
                Self::LastInTheStore => (place as i64, 0),
                _ => (pts, number),
            }
        })
    }

    fn covers(self, frame: &Frame, instant: i64) -> bool {
        match self {
            Self::EndCovers => (frame.pts..=frame.end()).contains(&instant),
            Self::StartDoesNotCover => frame.pts < instant && instant < frame.end(),
            Self::CutsTheInstant => (frame.pts..frame.end()).contains(&i64::from(instant as i32)),
            Self::NearestBefore => frame.pts <= instant,
            _ => (frame.pts..frame.end()).contains(&instant),
        }
    }

    /// From the flagged frame up to the target.
    fn start(self, frames: &[Frame], place: usize) -> Result<Start, u32> {
        let target = frames[place];
        let same_group = |frame: &Frame| frame.group == target.group;
        let leads = |at: &usize| {
            let frame = &frames[*at];
            frame.flagged && (same_group(frame) || self == Self::AnyGroupsPoint)
        };
        let up_to = match self {
            Self::LooksOn => frames.len(),
            Self::LooksBeforeTheTarget => place,
            _ => place + 1,
        };
        let mut points = (0..up_to).filter(leads);
        let point = match self {
            Self::FirstPoint => points.next(),
            _ => points.next_back(),
        };
        let first = (0..=place).find(|at| same_group(&frames[*at]));
        let point = match self {
            Self::StartsWithoutAPoint => point.or(first),
            _ => point,
        };
        let point = point.ok_or(NO_START)?;
        let decoded = frames[point.min(place)..=place].iter();
        let counted = decoded.filter(|f| same_group(f) || self == Self::CountsOtherGroups);
        Ok(Start {
            target: target.number,
            flagged: frames[point].number,
            count: counted.count(),
        })
    }

    /// What is told of where to start.
    fn told(self, start: Start) -> Start {
        let Start {
            target,
            flagged,
            count,
        } = start;
        match self {
            Self::SameAlways => Start {
                target: 1,
                flagged: 1,
                count: 1,
            },
            Self::ForgetsTheTarget => Start {
                count: count - 1,
                ..start
            },
            Self::SwapsTheNumbers => Start {
                target: flagged,
                flagged: target,
                count,
            },
            _ => start,
        }
    }
}
