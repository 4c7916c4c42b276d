//! Counts of a report's frames that are wrong in one thing each: the walk with something laid over it,
//! or the answer of `second` changed.

use script::{Second, Subject};
use second::{Frame, State};

/// What a count does wrongly.
#[derive(Clone, Copy, Debug, PartialEq, Eq)]
pub enum WrongWalk {
    RefusesAll,
    TakesAll,
    TakesNone,
    RefusesAShortList,
    RefusesATrackWithoutFrames,
    TrackBeforeState,
    ForgetsTheFrameTooMany,
    TakesOneFrameMore,
    TakesAllOfItsTime,
    TakesOneWithoutFrames,
    CountsRanges,
    InStoreOrder,
    PartsWhatTouches,
    JoinsAcrossOne,
    EndsWithTheLastFrame,
    TakesOneRangeMore,
}

/// How a wrong walk judges ranges.
struct Rules {
    sorted: bool,
    /// From the end of a range, where the next one begins.
    gap: i64,
    /// Whether a range ends with the latest end in it, and not with the end of its last frame.
    latest: bool,
}

const RIGHT: Rules = Rules {
    sorted: true,
    gap: 1,
    latest: true,
};

impl WrongWalk {
    pub const ALL: [Self; 16] = [
        Self::RefusesAll,
        Self::TakesAll,
        Self::TakesNone,
        Self::RefusesAShortList,
        Self::RefusesATrackWithoutFrames,
        Self::TrackBeforeState,
        Self::ForgetsTheFrameTooMany,
        Self::TakesOneFrameMore,
        Self::TakesAllOfItsTime,
        Self::TakesOneWithoutFrames,
        Self::CountsRanges,
        Self::InStoreOrder,
        Self::PartsWhatTouches,
        Self::JoinsAcrossOne,
        Self::EndsWithTheLastFrame,
        Self::TakesOneRangeMore,
    ];

    /// The wrong answer.
    pub fn walk(self, state: &State, track: u32, places: usize) -> Result<usize, u32> {
        let unknown = !(1..=state.head.track_count as u32).contains(&track);
        if self == Self::TrackBeforeState && unknown {
            return Err(3);
        }
        let mut second = Second::<()>::default();
        let taken = second.walked(state, track, places)?;
        let mut list = vec![[0; 2]; places];
        let short = second.track_ranges(state, track, &mut list).is_err();
        let frames = frames_of(state, track);
        let by = |rules| Ok(taken_by(&frames, places, rules));
        match self {
            Self::RefusesAll => Err(1),
            Self::TakesAll => Ok(frames.len()),
            Self::TakesNone => Ok(0),
            Self::RefusesAShortList if short => Err(10),
            Self::RefusesATrackWithoutFrames if frames.is_empty() => Err(3),
            Self::ForgetsTheFrameTooMany if short => Ok(taken - 1),
            Self::TakesOneFrameMore if short && taken < frames.len() => Ok(taken + 1),
            Self::TakesAllOfItsTime if short => Ok(up_to_its_time(&frames, taken)),
            Self::TakesOneWithoutFrames => Ok(taken.max(1)),
            Self::CountsRanges => Ok(if short { places + 1 } else { taken }),
            Self::InStoreOrder => by(Rules {
                sorted: false,
                ..RIGHT
            }),
            Self::PartsWhatTouches => by(Rules { gap: 0, ..RIGHT }),
            Self::JoinsAcrossOne => by(Rules { gap: 2, ..RIGHT }),
            Self::EndsWithTheLastFrame => by(Rules {
                latest: false,
                ..RIGHT
            }),
            Self::TakesOneRangeMore => second.walked(state, track, places + 1),
            _ => Ok(taken),
        }
    }
}

/// A track's frames, in store order.
fn frames_of(state: &State, track: u32) -> Vec<Frame> {
    let stored = state.frames[..state.frame_count].iter();
    stored.filter(|f| f.track == track).copied().collect()
}

/// How many frames a walk takes by some rules.
fn taken_by(frames: &[Frame], places: usize, rules: Rules) -> usize {
    let mut frames = frames.to_vec();
    if rules.sorted {
        frames.sort_by_key(|frame| frame.pts);
    }
    let (mut ranges, mut end) = (0, i64::MIN / 2);
    for (place, frame) in frames.iter().enumerate() {
        ranges += usize::from(frame.pts >= end + rules.gap);
        if ranges > places {
            return place + 1;
        }
        end = match rules.latest {
            true => end.max(frame.end()),
            false => frame.end(),
        };
    }
    frames.len()
}

/// The frames taken, and the others that are presented with the last of them.
fn up_to_its_time(frames: &[Frame], taken: usize) -> usize {
    let mut times: Vec<i64> = frames.iter().map(|frame| frame.pts).collect();
    times.sort();
    times.partition_point(|time| *time <= times[taken - 1])
}
