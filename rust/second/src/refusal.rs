//! "Refusal numbers", and the causes that stand in fate lines.

/// Why a call was refused; the numbers are those of the paper's table.
#[derive(Clone, Copy, Debug, PartialEq, Eq, Hash)]
pub enum Refusal {
    /// The state handed in is not well-formed, or the reader of lumps is none that a call hands out.
    IllFormed = 1,
    /// The fate list has under 1,024 lines, or under 1,088 for a batch.
    ShortFates = 2,
    /// The track number is not one of the buffer's.
    UnknownTrack = 3,
    /// A field of the offered frame is outside its limit, or a timescale or a listed frame is.
    OfferedLimits = 4,
    /// A time in seconds is NaN, infinite where it may not be, or beyond the limit.
    Seconds = 5,
    /// Two times in the wrong order, or a start below 0.
    Order = 6,
    /// Offset, presentation time, decode time or frame end leaves the result limits.
    ResultLimits = 7,
    /// The steps would leave more than 1,024 frames stored.
    Full = 8,
    /// The last frame number is already given, or the last group number where one more is needed.
    NumbersGone = 9,
    /// The lent list has fewer places than there are ranges, or frames to be listed.
    ShortList = 10,
    /// Creation with 0 or over 4 tracks, or an unknown kind.
    Creation = 11,
    /// A segment whose boxes are malformed, or one of them missing, doubled or after a run.
    Malformed = 12,
    /// What is lent has a size that the call does not take: a list of over 64 frames, a lump of over
    /// 65,536 bytes, or a buffer of under 65,536 for lumps.
    LentSize = 13,
    /// A movie fragment box of over 65,536 bytes, in a segment that comes in lumps.
    LargeFragment = 14,
    /// No frame covers the instant, or no random access point of its group leads to the one that does.
    NoStart = 15,
}

impl Refusal {
    /// The number in the paper's table.
    pub fn number(self) -> u32 {
        self as u32
    }
}

/// Why a frame is not, or no longer, stored.
#[derive(Clone, Copy, Debug, PartialEq, Eq, Hash)]
pub enum Cause {
    /// Dropped: it begins before the window.
    BeforeWindow = 1,
    /// Dropped: it ends after the window.
    AfterWindow = 2,
    /// Dropped: a random access point is needed first.
    NeedsRandomAccess = 3,
    /// Taken out by the frame that is stored in its place.
    Overlapped = 4,
    /// Taken out because a frame of its group that it depends on was.
    Follows = 5,
    /// Taken out by a removal.
    Removed = 6,
}

/// A line of a fate list: frame number, cause.
pub type Fate = [u32; 2];

impl Cause {
    /// The fate line of a frame that ends by this cause.
    pub(crate) fn line(self, number: u32) -> Fate {
        [number, self as u32]
    }
}
