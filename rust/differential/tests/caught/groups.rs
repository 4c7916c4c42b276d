//! Builds that are wrong about groups in one thing each: `second`, handed a state whose groups are
//! others, or its answer changed.

use script::{Second, Subject};
use second::{well_formed, Fate, Frame, Mode, Offered, State, Track, FRAME_PLACES};

/// What a build does wrongly.
#[derive(Clone, Copy, Debug, PartialEq, Eq)]
pub enum WrongGroup {
    NeverRises,
    SparesTheUnset,
    RemovalDoesNotRaise,
    ModeRaises,
    StoresTheNumberBefore,
    WalksThroughAll,
    StopsAtAnyPoint,
    StoresNoGroup,
    GroupBeforeLimits,
    DropsInTheLast,
    AbortsInTheLast,
    RemovesInTheLast,
    StaysInTheLast,
    RefusesTheLast,
    OneGroupLess,
}

const LAST: u32 = u32::MAX;

/// What `second` does.
fn right() -> Second {
    Second::default()
}

/// The state before the last group: all its groups are one less, and those of 0 stay.
fn lowered(state: &State) -> State {
    let mut lowered = *state;
    lowered.head.group -= 1;
    for frame in &mut lowered.frames[..state.frame_count] {
        frame.group = frame.group.saturating_sub(1);
    }
    lowered
}

/// The other way, for what is left of a state that was lowered.
fn raised(state: &mut State, before: &State) {
    let olds = &before.frames[..before.frame_count];
    for frame in &mut state.frames[..state.frame_count] {
        let old = olds.iter().find(|old| old.number == frame.number);
        frame.group = old.map_or(LAST, |old| old.group);
    }
    state.head.group = LAST;
}

impl WrongGroup {
    pub const ALL: [Self; 15] = [
        Self::NeverRises,
        Self::SparesTheUnset,
        Self::RemovalDoesNotRaise,
        Self::ModeRaises,
        Self::StoresTheNumberBefore,
        Self::WalksThroughAll,
        Self::StopsAtAnyPoint,
        Self::StoresNoGroup,
        Self::GroupBeforeLimits,
        Self::DropsInTheLast,
        Self::AbortsInTheLast,
        Self::RemovesInTheLast,
        Self::StaysInTheLast,
        Self::RefusesTheLast,
        Self::OneGroupLess,
    ];

    /// The wrong append.
    pub fn append(
        self,
        state: &mut State,
        offered: &Offered,
        fates: &mut [Fate],
    ) -> Result<usize, u32> {
        let before = *state;
        let in_last = before.head.group == LAST;
        let mut lines = fates.to_vec();
        let mut result = self.walked(state, |state| right().append(state, offered, &mut lines));
        match self {
            Self::NeverRises | Self::StoresTheNumberBefore if result.is_ok() => {
                let last = state.head.last_number;
                let mut stored = state.frames[..state.frame_count].iter_mut();
                if let Some(new) = stored.find(|frame| frame.number == last) {
                    new.group = before.head.group;
                }
                if self == Self::NeverRises {
                    state.head.group = before.head.group;
                }
            }
            Self::StoresNoGroup if result.is_ok() => {
                let stored = &mut state.frames[..state.frame_count];
                stored.iter_mut().for_each(|frame| frame.group = 0);
            }
            Self::GroupBeforeLimits if in_last && result == Err(7) && breaks(&before, offered) => {
                return Err(9);
            }
            Self::DropsInTheLast | Self::StaysInTheLast
                if result == Err(9) && before.head.last_number < u32::MAX =>
            {
                let mut after = lowered(&before);
                let said = right().append(&mut after, offered, &mut lines);
                let dropped = said == Ok(1) && lines[0][1] <= 3;
                if said.is_ok() && (dropped || self == Self::StaysInTheLast) {
                    raised(&mut after, &before);
                    *state = after;
                    result = said;
                }
            }
            Self::RefusesTheLast if in_last && result.is_ok() => {
                *state = before;
                return Err(9);
            }
            Self::OneGroupLess if state.head.group == LAST && !in_last => {
                *state = before;
                return Err(9);
            }
            _ => {}
        }
        if let Ok(count) = result {
            fates[..count].copy_from_slice(&lines[..count]);
        }
        result
    }

    /// The wrong removal.
    pub fn remove(
        self,
        state: &mut State,
        start: f64,
        end: f64,
        fates: &mut [Fate],
    ) -> Result<usize, u32> {
        let before = *state;
        let result = self.walked(state, |state| right().remove(state, start, end, fates));
        match (self, result) {
            (Self::NeverRises | Self::RemovalDoesNotRaise, Ok(_)) => {
                state.head.group = before.head.group;
            }
            (Self::RemovesInTheLast, Err(9)) => {
                let mut after = lowered(&before);
                let count = right().remove(&mut after, start, end, fates)?;
                raised(&mut after, &before);
                *state = after;
                return Ok(count);
            }
            _ => {}
        }
        result
    }

    /// The wrong abort.
    pub fn abort(self, state: &mut State) -> Result<(), u32> {
        let before = *state;
        let result = right().abort(state);
        let unset = before.head.tracks.iter().all(|t| !t.last_decode.set);
        match (self, result) {
            (Self::NeverRises, Ok(())) => state.head.group = before.head.group,
            (Self::SparesTheUnset, Ok(())) if unset => state.head.group = before.head.group,
            (Self::AbortsInTheLast, Err(9)) => {
                let mut after = lowered(&before);
                right().abort(&mut after)?;
                raised(&mut after, &before);
                *state = after;
                return Ok(());
            }
            _ => {}
        }
        result
    }

    /// The wrong setting of a mode.
    pub fn set_mode(self, state: &mut State, mode: Mode) -> Result<(), u32> {
        right().set_mode(state, mode)?;
        if self == Self::ModeRaises {
            state.head.group = state.head.group.saturating_add(1);
        }
        Ok(())
    }

    /// A call whose walk goes wrong, on a state whose groups are others while it is made.
    fn walked(
        self,
        state: &mut State,
        call: impl FnOnce(&mut State) -> Result<usize, u32>,
    ) -> Result<usize, u32> {
        let other: fn(&[Frame], usize) -> u32 = match self {
            Self::WalksThroughAll => |_, _| 0,
            Self::StopsAtAnyPoint => points_before,
            _ => return call(state),
        };
        let group = state.head.group;
        if well_formed(state).is_err() || group == LAST {
            return call(state);
        }
        let olds: Vec<Frame> = state.frames[..state.frame_count].to_vec();
        state.head.group = LAST - 1;
        for place in 0..olds.len() {
            state.frames[place].group = other(&olds, place);
        }
        let result = call(state);
        let rose = state.head.group == LAST;
        state.head.group = group + u32::from(rose);
        for frame in &mut state.frames[..state.frame_count] {
            let old = olds.iter().find(|old| old.number == frame.number);
            frame.group = old.map_or(state.head.group, |old| old.group);
        }
        result
    }
}

/// Whether the limits are left in the second pass alone: they are kept where nothing breaks.
fn breaks(state: &State, offered: &Offered) -> bool {
    let mut unset = *state;
    for track in &mut unset.head.tracks[..state.head.track_count] {
        *track = Track {
            kind: track.kind,
            ..Track::default()
        };
    }
    right().append(&mut unset, offered, &mut [[0; 2]; FRAME_PLACES]) != Err(7)
}

/// A group of its own for the frames of a group that stand after the same points of others, so that
/// no walk goes past one.
fn points_before(frames: &[Frame], place: usize) -> u32 {
    let own = frames[place].group;
    let others = frames[..place].iter();
    let points = others.filter(|frame| frame.flagged && frame.group != own);
    own * 2000 + points.count() as u32
}
