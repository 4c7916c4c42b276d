//! Numbers that have a name: refusals, causes, kinds and modes. Their words are those of
//! `include/galumper.h`.

use std::error::Error;
use std::fmt;

/// Why a call is refused. A refused call changes nothing: buffer, reader and lists stay as they were.
#[non_exhaustive]
#[derive(Clone, Copy, Debug, PartialEq, Eq, Hash)]
pub enum Refusal {
    /// The buffer is not well-formed, or the lump reader is none to which bytes lead.
    IllFormed = 1,
    /// A fate list of fewer than 1,024 lines, or 1,088 for a batch.
    ShortFates = 2,
    /// A track that the buffer does not have.
    NoTrack = 3,
    /// A field of the offered frame, or of one read from a segment, outside its limit, or such a
    /// timescale.
    FrameLimits = 4,
    /// A double that does not convert to microseconds.
    Seconds = 5,
    /// A window or a removal whose start does not come before its end, or a negative start.
    Order = 6,
    /// A time that would leave the limits.
    ResultLimits = 7,
    /// No place left in the store.
    Full = 8,
    /// No frame number left to give, or no group number where the call would begin a group.
    LastNumber = 9,
    /// More ranges or frames than the lent list has places.
    ShortList = 10,
    /// Creation with no track, more than four, or an unknown kind.
    Kinds = 11,
    /// A segment with a box that overruns, is too short, has size 0 or an unknown version, or with
    /// a movie fragment, a track fragment's header or a decode time missing, doubled or after a run.
    Malformed = 12,
    /// What is lent has a size that the call does not take: a batch of more than 64 frames, a lump of
    /// more than 65,536 bytes, or a lump buffer of fewer.
    LentSize = 13,
    /// A movie fragment box of more than 65,536 bytes in a segment that comes in lumps.
    LargeFragment = 14,
    /// No frame of the track covers the instant, or no random access point leads to the one that does.
    NoStart = 15,
}

impl Refusal {
    /// Every refusal, by rising number.
    pub const ALL: &'static [Self] = &[
        Self::IllFormed,
        Self::ShortFates,
        Self::NoTrack,
        Self::FrameLimits,
        Self::Seconds,
        Self::Order,
        Self::ResultLimits,
        Self::Full,
        Self::LastNumber,
        Self::ShortList,
        Self::Kinds,
        Self::Malformed,
        Self::LentSize,
        Self::LargeFragment,
        Self::NoStart,
    ];

    /// Its number, which is the same in every language.
    pub const fn number(self) -> u32 {
        self as u32
    }

    /// The refusal that the library answered. That it answers no other number is proved.
    pub(crate) fn answered(number: u32) -> Self {
        let refusal = Self::ALL.iter().find(|refusal| refusal.number() == number);
        *refusal.unwrap_or_else(|| panic!("the library answered {number}, which is no refusal"))
    }
}

impl fmt::Display for Refusal {
    fn fmt(&self, f: &mut fmt::Formatter<'_>) -> fmt::Result {
        f.pad(match self {
            Self::IllFormed => "the buffer or lump reader is not well-formed",
            Self::ShortFates => "the fate list has too few lines",
            Self::NoTrack => "the buffer has no such track",
            Self::FrameLimits => "a frame or timescale is outside the limits",
            Self::Seconds => "the seconds do not convert to microseconds",
            Self::Order => "the start is negative or not before the end",
            Self::ResultLimits => "a time would leave the limits",
            Self::Full => "the store is full",
            Self::LastNumber => "the last frame or group number is given",
            Self::ShortList => "the list has too few places",
            Self::Kinds => "no track, more than four, or an unknown kind",
            Self::Malformed => "the segment is not well-formed",
            Self::LentSize => "what is lent has a size that the call does not take",
            Self::LargeFragment => "a movie fragment is too large for lumps",
            Self::NoStart => "nowhere to start decoding",
        })
    }
}

impl Error for Refusal {}

/// Why a frame is on a fate line. Any number may stand in a list that is lent; the library writes
/// those that are named here.
#[repr(transparent)]
#[derive(Clone, Copy, Debug, Default, PartialEq, Eq, PartialOrd, Ord, Hash)]
pub struct Cause(pub u32);

impl Cause {
    /// Dropped: it begins before the append window.
    pub const BEFORE_WINDOW: Self = Self(1);
    /// Dropped: it ends after the append window.
    pub const AFTER_WINDOW: Self = Self(2);
    /// Dropped: its track waits for a random access point.
    pub const NEEDS_POINT: Self = Self(3);
    /// Removed: the appended frame took its place.
    pub const OVERLAPPED: Self = Self(4);
    /// Removed: it depended on a frame of its group that was removed.
    pub const DEPENDED: Self = Self(5);
    /// Removed: by a removal, as it begins in the stretch that goes.
    pub const REMOVED: Self = Self(6);
}

impl fmt::Display for Cause {
    fn fmt(&self, f: &mut fmt::Formatter<'_>) -> fmt::Result {
        f.pad(match *self {
            Self::BEFORE_WINDOW => "begins before the append window",
            Self::AFTER_WINDOW => "ends after the append window",
            Self::NEEDS_POINT => "its track waits for a random access point",
            Self::OVERLAPPED => "overlapped by an appended frame",
            Self::DEPENDED => "depended on a frame that is gone",
            Self::REMOVED => "begins in a removed stretch",
            _ => "unknown cause",
        })
    }
}

/// What a track carries. A creation with any other kind than those named here is refused.
#[repr(transparent)]
#[derive(Clone, Copy, Debug, Default, PartialEq, Eq, Hash)]
pub struct Kind(pub u8);

impl Kind {
    /// Video.
    pub const VIDEO: Self = Self(0);
    /// Audio.
    pub const AUDIO: Self = Self(1);
}

impl fmt::Display for Kind {
    fn fmt(&self, f: &mut fmt::Formatter<'_>) -> fmt::Result {
        f.pad(match *self {
            Self::VIDEO => "video",
            Self::AUDIO => "audio",
            _ => "unknown kind",
        })
    }
}

/// How appended frames find their place in time.
#[derive(Clone, Copy, Debug, PartialEq, Eq, Hash)]
pub enum Mode {
    /// As their timestamps say.
    Segments = 0,
    /// Each group after the one before.
    Sequence = 1,
}

impl Mode {
    /// Its number in a head.
    pub const fn number(self) -> u32 {
        self as u32
    }
}

impl fmt::Display for Mode {
    fn fmt(&self, f: &mut fmt::Formatter<'_>) -> fmt::Result {
        f.pad(match self {
            Self::Segments => "segments",
            Self::Sequence => "sequence",
        })
    }
}
