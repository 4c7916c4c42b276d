//! A seek as the request has it, word for word.

use second::{well_formed, Frame, State};

/// What a seek finds.
#[derive(Clone, Debug)]
pub(crate) struct Sought {
    /// The instant.
    pub(crate) instant: i64,
    /// The track's frames, in store order.
    pub(crate) frames: Vec<Frame>,
    /// Whether a frame of another track covers the instant.
    pub(crate) elsewhere: bool,
    /// The frame that is picked, if one covers the instant.
    pub(crate) target: Option<Frame>,
    /// The frames to decode, in store order: none where no flagged one leads to the target.
    pub(crate) decoded: Vec<Frame>,
}

impl Sought {
    /// On a track of a state; nothing where refusal 1 or 3 is due.
    pub(crate) fn of(state: &State, track: u32, instant: i64) -> Option<Self> {
        let tracks = 1..=state.head.track_count as u32;
        if well_formed(state).is_err() || !tracks.contains(&track) {
            return None;
        }
        let stored = state.frames[..state.frame_count].iter();
        let (frames, others): (Vec<Frame>, Vec<Frame>) =
            stored.partition(|frame| frame.track == track);
        let covers = |frame: &&Frame| frame.pts <= instant && instant < frame.end();
        let mut covering: Vec<&Frame> = frames.iter().filter(covers).collect();
        covering.sort_by_key(|frame| (frame.pts, frame.number));
        let target = covering.last().map(|frame| **frame);
        Some(Self {
            instant,
            elsewhere: others.iter().any(|frame| covers(&frame)),
            target,
            decoded: target.map_or(Vec::new(), |target| decoded(&frames, &target)),
            frames,
        })
    }

    /// Whether 15 is due by its second reason: no flagged frame of its group leads to the target.
    pub(crate) fn lacks_point(&self) -> bool {
        self.target.is_some() && self.decoded.is_empty()
    }

    /// What a session answers to it.
    pub(crate) fn answer(&self) -> String {
        match (&self.target, self.decoded.first()) {
            (Some(target), Some(flagged)) => {
                let count = self.decoded.len();
                format!("ok seek {} {} {count}", target.number, flagged.number)
            }
            _ => "refused 15".to_string(),
        }
    }
}

/// The frames of the target's group up to it, from the last flagged one of them on.
fn decoded(frames: &[Frame], target: &Frame) -> Vec<Frame> {
    let place = |frame: &Frame| (frame.dts, frame.number);
    let leads = |frame: &&Frame| frame.group == target.group && place(frame) <= place(target);
    let mut group: Vec<Frame> = frames.iter().filter(leads).copied().collect();
    match group.iter().rposition(|frame| frame.flagged) {
        Some(first) => group.split_off(first),
        None => Vec::new(),
    }
}
