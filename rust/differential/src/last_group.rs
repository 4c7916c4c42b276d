//! A call in the last group, beside the same call where another group could follow.

use script::{Call, Second, Session};
use second::{well_formed, Mode, Offered, State};

/// A call in the last group that may begin a group.
#[derive(Clone, Debug)]
pub(crate) struct LastGroup {
    /// The call.
    pub(crate) call: Call,
    /// What it is answered.
    pub(crate) answer: String,
    /// What it is answered where another group can follow.
    pub(crate) twin: String,
    /// Whether it would begin a group, if nothing else refused it.
    pub(crate) begins: bool,
    /// Whether the three of any track are set.
    pub(crate) known: bool,
}

impl LastGroup {
    /// The call on a state, if it is one and the state is in the last group.
    pub(crate) fn of(state: &State, call: &str, answer: &str) -> Option<Self> {
        if state.head.group < u32::MAX || well_formed(state).is_err() {
            return None;
        }
        let read = Call::read(call)?;
        let twin = twin(state);
        let mut second: Second = Second::default();
        let mut session = Session::new(&mut second);
        session.set_state(twin);
        let said = session.answer(call)?;
        let after = session.view()?;
        let begins = match &read {
            Call::Append(offered, _) => breaks(state, offered),
            Call::Remove(..) | Call::Abort => after.head.group > twin.head.group,
            _ => return None,
        };
        let mut tracks = state.head.tracks.iter();
        Some(Self {
            call: read,
            answer: answer.to_string(),
            twin: said,
            begins,
            known: tracks.any(|track| track.last_decode.set),
        })
    }

    /// What it is to be answered: 9 after all other refusals but 8.
    pub(crate) fn due(&self) -> &str {
        let before = self.twin.starts_with("refused") && self.twin != "refused 8";
        match self.begins && !before {
            true => "refused 9",
            false => &self.twin,
        }
    }
}

/// The state with its groups numbered anew, from 0 and in their order.
fn twin(state: &State) -> State {
    let mut twin = *state;
    let stored = &mut twin.frames[..twin.frame_count];
    let mut groups: Vec<u32> = stored.iter().map(|frame| frame.group).collect();
    groups.sort();
    groups.dedup();
    for frame in stored {
        frame.group = groups.partition_point(|group| *group < frame.group) as u32;
    }
    twin.head.group = groups.len() as u32;
    twin
}

/// Whether step 3 breaks in the first pass.
fn breaks(state: &State, offered: &Offered) -> bool {
    let head = &state.head;
    let used = &head.tracks[..head.track_count];
    let Some(track) = used.get((offered.track as usize).wrapping_sub(1)) else {
        return false;
    };
    let offset = match (head.mode, head.group_start.get()) {
        (Mode::Sequence, Some(start)) => start.saturating_sub(offered.pts),
        _ => head.settings.offset.micros,
    };
    let dts = offered.dts.saturating_add(offset);
    match (track.last_decode.get(), track.last_duration.get()) {
        (Some(last), Some(duration)) => dts < last || dts > last + 2 * duration,
        _ => false,
    }
}
