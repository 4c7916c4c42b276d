//! What a batch takes and answers, whatever the implementation.

use second::{Offered, Row};

/// What became of a batch that is not refused as a whole.
#[derive(Clone, Copy, Debug, PartialEq, Eq)]
pub struct Batch {
    /// How many frames were accepted.
    pub accepted: usize,
    /// The refusal of the frame that stopped it, if one did.
    pub stop: Option<u32>,
    /// How many fate lines there are.
    pub lines: usize,
}

/// The row that offers a frame. Its size is 0, as a script names none.
pub fn row_of(offered: &Offered) -> Row {
    [
        i64::from(offered.track),
        offered.pts,
        offered.dts,
        i64::from(offered.duration),
        i64::from(offered.flagged),
        0,
    ]
}
