//! What is asked of a segment, and the rows that it lists.

/// Timescales run from 1 to this.
pub const FINEST_TIMESCALE: u32 = 1_000_000;

/// The track whose frames are listed, and what holds where the segment does not say it.
#[derive(Clone, Copy, Debug, PartialEq, Eq)]
pub struct SegmentTrack {
    /// The track's ID in the segment.
    pub id: u32,
    /// The track number that its frames shall carry, which is not judged.
    pub track: u32,
    /// Its media time units in a second.
    pub timescale: u32,
    /// The default duration, in such units.
    pub duration: u32,
    /// The default size.
    pub size: u32,
    /// The default flags.
    pub flags: u32,
}

/// A listed frame: track, presentation time, decode time, duration, 1 if flagged or else 0, size.
pub type Row = [i64; 6];
