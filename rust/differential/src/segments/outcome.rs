//! What listing a segment answers.

use script::{Place, Subject};
use second::{Row, SegmentTrack};

/// Numbers that no listed frame has.
pub(crate) const MARK: Row = [i64::MIN, i64::MAX, i64::MIN, i64::MAX, i64::MIN, i64::MAX];

/// What a call answers, with the whole list as it lies afterwards.
#[derive(Clone, Debug, PartialEq, Eq)]
pub(crate) struct Outcome {
    pub(crate) result: Result<usize, u32>,
    pub(crate) list: Vec<Row>,
}

impl Outcome {
    /// Of a whole segment, into so many places.
    pub(crate) fn of<S: Subject>(
        subject: &mut S,
        of: SegmentTrack,
        segment: &[u8],
        places: usize,
    ) -> Self {
        let mut list = vec![S::Row::of(MARK); places];
        let result = subject.list_segment(of, segment, &mut list);
        let list = list.into_iter().map(Place::numbers).collect();
        Self { result, list }
    }

    /// Whether it wrote its count of rows and no other, and on a refusal none.
    pub(crate) fn is_tidy(&self) -> bool {
        let count = self.result.unwrap_or(0);
        let rest = self.list.get(count..);
        rest.is_some_and(|rest| rest.iter().all(|row| *row == MARK))
    }
}
