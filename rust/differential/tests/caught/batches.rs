//! Batches that are wrong in one thing each: `second`, handed other rows or another list, or its
//! answer changed.

use script::{Batch, Second, Subject};
use second::{well_formed, Fate, Row, State, BATCH_FRAMES, BATCH_LINES, FRAME_PLACES};

/// What a batch does wrongly.
#[derive(Clone, Copy, Debug, PartialEq, Eq)]
pub enum WrongBatch {
    RefusesAll,
    AcceptsNone,
    ChangesNothing,
    SizeBeforeState,
    LinesBeforeSize,
    TakesTheListOfAnAppend,
    TakesOneFrameMore,
    SparesTheEmptyList,
    ForgetsTheStop,
    StopIsARefusal,
    StopIsAlways4,
    CountsTheStoppingFrame,
    StopUndoesTheAccepted,
    LinesAtTheFront,
    WritesPastTheCount,
    WritesWhenRefused,
    CutsTracks,
    CutsDurations,
    TakesAnyFlag,
    JudgesSizes,
}

const NONE: Batch = Batch {
    accepted: 0,
    stop: None,
    lines: 0,
};

/// What `second` does.
fn right(state: &mut State, rows: &[Row], fates: &mut [Fate]) -> Result<Batch, u32> {
    Second::<()>::default().append_batch(state, rows, fates)
}

impl WrongBatch {
    pub const ALL: [Self; 20] = [
        Self::RefusesAll,
        Self::AcceptsNone,
        Self::ChangesNothing,
        Self::SizeBeforeState,
        Self::LinesBeforeSize,
        Self::TakesTheListOfAnAppend,
        Self::TakesOneFrameMore,
        Self::SparesTheEmptyList,
        Self::ForgetsTheStop,
        Self::StopIsARefusal,
        Self::StopIsAlways4,
        Self::CountsTheStoppingFrame,
        Self::StopUndoesTheAccepted,
        Self::LinesAtTheFront,
        Self::WritesPastTheCount,
        Self::WritesWhenRefused,
        Self::CutsTracks,
        Self::CutsDurations,
        Self::TakesAnyFlag,
        Self::JudgesSizes,
    ];

    /// Whether it shows in rows alone that no script can hold.
    pub fn shows_in_rows(self) -> bool {
        self.seen([1 << 32, 0, 0, 1 << 32, 2, -1]) != [1 << 32, 0, 0, 1 << 32, 2, -1]
    }

    /// The wrong answer.
    pub fn append(self, state: &mut State, rows: &[Row], fates: &mut [Fate]) -> Result<Batch, u32> {
        let before = *state;
        let long = rows.len() > BATCH_FRAMES;
        let short = fates.len() < BATCH_LINES;
        let healthy = well_formed(state).is_ok();
        match self {
            Self::RefusesAll => return Err(1),
            Self::SizeBeforeState if long => return Err(13),
            Self::LinesBeforeSize if healthy && short => return Err(2),
            Self::SparesTheEmptyList if rows.is_empty() => return Ok(NONE),
            Self::TakesTheListOfAnAppend
                if healthy && !long && short && fates.len() >= FRAME_PLACES =>
            {
                return one_by_one(state, rows, fates, joined);
            }
            Self::TakesOneFrameMore if healthy && rows.len() == BATCH_FRAMES + 1 && !short => {
                return one_by_one(state, rows, fates, joined);
            }
            Self::LinesAtTheFront if healthy && !long && !short => {
                return one_by_one(state, rows, fates, |_| 0);
            }
            _ => {}
        }
        let seen: Vec<Row> = rows.iter().map(|row| self.seen(*row)).collect();
        let Ok(batch) = right(state, &seen, fates) else {
            if self == Self::WritesWhenRefused && !fates.is_empty() {
                fates[0] = [0, 0];
            }
            return right(state, &seen, fates);
        };
        self.changed(batch, state, &before, rows, fates)
    }

    /// An accepted batch, made wrong.
    fn changed(
        self,
        batch: Batch,
        state: &mut State,
        before: &State,
        rows: &[Row],
        fates: &mut [Fate],
    ) -> Result<Batch, u32> {
        match (self, batch.stop) {
            (Self::AcceptsNone, _) => {
                *state = *before;
                return Ok(NONE);
            }
            (Self::ChangesNothing, _) => *state = *before,
            (Self::ForgetsTheStop, Some(_)) => {
                let rest = &rows[batch.accepted + 1..];
                let mut lines = vec![[0; 2]; BATCH_LINES];
                let more = self.append(state, rest, &mut lines)?;
                fates[batch.lines..][..more.lines].copy_from_slice(&lines[..more.lines]);
                return Ok(Batch {
                    accepted: batch.accepted + more.accepted,
                    stop: None,
                    lines: batch.lines + more.lines,
                });
            }
            (Self::StopIsARefusal, Some(stop)) => return Err(stop),
            (Self::StopIsAlways4, Some(_)) => {
                return Ok(Batch {
                    stop: Some(4),
                    ..batch
                });
            }
            (Self::CountsTheStoppingFrame, Some(_)) => {
                return Ok(Batch {
                    accepted: batch.accepted + 1,
                    ..batch
                });
            }
            (Self::StopUndoesTheAccepted, Some(_)) => *state = *before,
            (Self::WritesPastTheCount, _) => fates[batch.lines] = [0, 0],
            _ => {}
        }
        Ok(batch)
    }

    /// A row as it is taken.
    fn seen(self, [track, pts, dts, duration, flag, size]: Row) -> Row {
        let cut = |number: i64| i64::from(number as u32);
        match self {
            Self::CutsTracks => [cut(track), pts, dts, duration, flag, size],
            Self::CutsDurations => [track, pts, dts, cut(duration), flag, size],
            Self::TakesAnyFlag => [track, pts, dts, duration, i64::from(flag != 0), size],
            Self::JudgesSizes if size < 0 => [track, pts, dts, 0, flag, size],
            _ => [track, pts, dts, duration, flag, size],
        }
    }
}

/// Where the next lines go when so many are written.
fn joined(lines: usize) -> usize {
    lines
}

/// A batch for each frame, with lines of its own; they are copied to where `place` says.
fn one_by_one(
    state: &mut State,
    rows: &[Row],
    fates: &mut [Fate],
    place: impl Fn(usize) -> usize,
) -> Result<Batch, u32> {
    let mut sum = NONE;
    for row in rows {
        let mut lines = vec![[0; 2]; BATCH_LINES];
        let one = right(state, &[*row], &mut lines)?;
        fates[place(sum.lines)..][..one.lines].copy_from_slice(&lines[..one.lines]);
        sum.accepted += one.accepted;
        sum.lines += one.lines;
        sum.stop = one.stop;
        if sum.stop.is_some() {
            break;
        }
    }
    Ok(sum)
}
