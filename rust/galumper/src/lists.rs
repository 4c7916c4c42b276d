//! The lists that a program lends, which a call writes from the start: fate lines and ranges.
//! Places past those that it wrote are not touched.

use crate::names::Cause;

/// The lines that the fate list of an append or a removal needs.
pub const FATES: usize = 1024;

/// So many places of a range list are always enough, for a track's ranges (never more than its
/// stored frames) and for the common ranges.
pub const RANGES: usize = 1024;

/// A line of a fate list: a frame that is dropped or removed.
#[repr(C)]
#[derive(Clone, Copy, Debug, Default, PartialEq, Eq, Hash)]
pub struct Fate {
    /// The frame's number.
    pub number: u32,
    /// Why it is gone.
    pub cause: Cause,
}

/// A range of instants in microseconds.
#[repr(C)]
#[derive(Clone, Copy, Debug, Default, PartialEq, Eq, Hash)]
pub struct Range {
    /// The first instant.
    pub start: i64,
    /// The end, which is outside.
    pub end: i64,
}

impl Range {
    /// Whether an instant is in it.
    pub fn contains(self, instant: i64) -> bool {
        (self.start..self.end).contains(&instant)
    }
}

/// Whether an instant is in one of the ranges: asked of those that a report wrote.
pub fn held(ranges: &[Range], instant: i64) -> bool {
    ranges.iter().any(|range| range.contains(instant))
}
