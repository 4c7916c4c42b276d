//! What is asked of a segment, and the frames that it lists: rows that a batch takes too.

/// The track of a segment that is read. All but `track` stands in the initialization segment, in
/// its boxes `tkhd`, `mdhd` and `trex`.
#[repr(C)]
#[derive(Clone, Copy, Debug, PartialEq, Eq)]
pub struct SegmentTrack {
    /// The track's ID in the segment.
    pub id: u32,
    /// The track number that its frames shall carry. It is not judged here.
    pub track: u32,
    /// Units of the track's media times in a second, from 1 to 1,000,000.
    pub timescale: u32,
    /// The duration of a sample for which the segment names none, in these units.
    pub duration: u32,
    /// The size of such a sample, in bytes.
    pub size: u32,
    /// The flags of such a sample.
    pub flags: u32,
}

/// A coded frame with its size, as one row of numbers. Times are microseconds; those of a row that
/// was listed are within the limits of an append.
#[repr(C)]
#[derive(Clone, Copy, Debug, Default, PartialEq, Eq, Hash)]
pub struct ListedFrame {
    /// The track number that was asked for.
    pub track: i64,
    /// Presentation time.
    pub pts: i64,
    /// Decode time.
    pub dts: i64,
    /// Duration.
    pub duration: i64,
    /// 1 for a random access point, else 0.
    pub flagged: i64,
    /// Bytes of the frame.
    pub size: i64,
}

// No padding: each struct has the bytes of its numbers.
const _: () = assert!(size_of::<SegmentTrack>() == 6 * 4 && size_of::<ListedFrame>() == 6 * 8);
