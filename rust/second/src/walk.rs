//! Step 8's walk as document 02, No. 4 mends it, "A good frame vanished after an overlap": through
//! frames of one group, past those of others.

use crate::state::Frame;
use crate::trace::{Branch, Trace};

/// How far the walk has come, in each group of a track's frames. What is told of other groups'
/// frames is judged by how it would have come without groups.
pub(crate) struct Walks {
    /// The groups, by rising number.
    groups: Vec<u32>,
    /// The place among them that was asked for last.
    asked: usize,
    /// For each of them the place of the frame that was last taken out, if no flagged frame of the
    /// group has stayed since.
    carried: Vec<Option<usize>>,
    /// The place of the frame of any group that was last taken out.
    taken: usize,
    /// The place of the flagged frame of any group that has stayed last.
    point: Option<usize>,
}

impl Walks {
    /// Before the first of some frames, at a place from which on some are taken out.
    pub(crate) fn before(frames: &[Frame], place: usize) -> Self {
        let runs = frames.chunk_by(|one, next| one.group == next.group);
        let mut groups: Vec<u32> = runs.map(|run| run[0].group).collect();
        groups.sort_unstable();
        groups.dedup();
        Self {
            carried: vec![None; groups.len()],
            groups,
            asked: 0,
            taken: place,
            point: None,
        }
    }

    /// The place of a frame's group among the groups. Frames of one group mostly stand together.
    pub(crate) fn group_of(&mut self, frame: &Frame) -> usize {
        if self.groups[self.asked] != frame.group {
            let group = self.groups.binary_search(&frame.group);
            self.asked = group.expect("a group of these frames");
        }
        self.asked
    }

    /// Whether a frame that is not taken out for itself follows one of its group that was; tells
    /// what frames of other groups did not do to it.
    pub(crate) fn lead_to<T: Trace>(&self, frame: &Frame, group: usize, trace: &mut T) -> bool {
        match (self.carried[group], frame.flagged) {
            (Some(_), true) => trace.reach(Branch::Step8Stops),
            (Some(from), false) => {
                trace.reach(Branch::Step8Takes);
                if self.point > Some(from) {
                    trace.reach(Branch::Step8PastPoint);
                }
                return true;
            }
            (None, false) if self.point < Some(self.taken) => {
                trace.reach(Branch::Step8NotCarried);
            }
            (None, _) => {}
        }
        false
    }

    /// A frame at a place is taken out.
    pub(crate) fn take(&mut self, group: usize, place: usize) {
        self.carried[group] = Some(place);
        self.taken = place;
    }

    /// A frame at a place stays.
    pub(crate) fn leave(&mut self, frame: &Frame, group: usize, place: usize) {
        if frame.flagged {
            self.carried[group] = None;
            self.point = Some(place);
        }
    }
}
