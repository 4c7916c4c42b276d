//! A batch as the request defines it: its frames appended one by one, the lists joined.

use script::Batch;
use second::{append, Fate, Offered, Refusal, State, FRAME_PLACES};

/// What single appends have done, each lent lines of its own.
#[derive(Clone, Debug, PartialEq, Eq)]
pub(crate) struct Singles {
    pub(crate) batch: Batch,
    pub(crate) fates: Vec<Fate>,
    pub(crate) state: State,
}

impl Singles {
    /// Appends frames with `second`, up to the first that is refused.
    pub(crate) fn of(mut state: State, frames: &[Offered]) -> Self {
        let mut fates = Vec::new();
        let mut stop = None;
        let mut accepted = 0;
        for frame in frames {
            let mut lines = [[0; 2]; FRAME_PLACES];
            match append(&mut state, frame, &mut lines) {
                Ok(count) => fates.extend_from_slice(&lines[..count]),
                Err(refusal) => {
                    stop = Some(refusal);
                    break;
                }
            }
            accepted += 1;
        }
        let batch = Batch {
            accepted,
            stop: stop.map(Refusal::number),
            lines: fates.len(),
        };
        Self {
            batch,
            fates,
            state,
        }
    }

    /// What a session answers to such a batch.
    pub(crate) fn answer(&self) -> String {
        let (accepted, stop) = (self.batch.accepted, self.batch.stop.unwrap_or(0));
        let mut answer = format!("ok batch {accepted} {stop} fates");
        for [number, cause] in &self.fates {
            answer.push_str(&format!(" ({number},{cause})"));
        }
        answer
    }
}
