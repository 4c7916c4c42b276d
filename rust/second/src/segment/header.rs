//! A track fragment's header and its decode time. Refusal 12, and no other.

use super::boxes::{malformed, Fields};
use super::rows::SegmentTrack;
use crate::refusal::Refusal;
use crate::trace::{SegmentBranch, Trace};

/// Duration, size and flags of a sample without its own.
#[derive(Clone, Copy)]
pub(super) struct Defaults {
    pub(super) duration: u32,
    pub(super) size: u32,
    pub(super) flags: u32,
}

/// A track fragment's header (tfhd).
pub(super) struct Header {
    /// The ID of its track.
    pub(super) id: u32,
    /// What holds for its samples.
    pub(super) defaults: Defaults,
}

impl Header {
    /// Reads it with every optional field that its flags name; what it lacks is as the call says.
    pub(super) fn read<T: Trace>(
        of: SegmentTrack,
        body: &[u8],
        trace: &mut T,
    ) -> Result<Self, Refusal> {
        const BASE_DATA_OFFSET: u32 = 0x1;
        const DESCRIPTION_INDEX: u32 = 0x2;
        const DURATION: u32 = 0x8;
        const SIZE: u32 = 0x10;
        const FLAGS: u32 = 0x20;

        let mut fields = Fields(body);
        let Some(((version, flags), id)) = fields.version_and_flags().zip(fields.u32()) else {
            return Err(malformed(SegmentBranch::HeaderShort, trace));
        };
        if version != 0 {
            return Err(malformed(SegmentBranch::HeaderVersion, trace));
        }
        let has = |field| flags & field != 0;
        let mut optional = || {
            if has(BASE_DATA_OFFSET) {
                fields.u64()?;
            }
            fields.optional(has(DESCRIPTION_INDEX))?;
            let duration = fields.optional(has(DURATION))?;
            let size = fields.optional(has(SIZE))?;
            let flags = fields.optional(has(FLAGS))?;
            Some((duration, size, flags))
        };
        let Some((duration, size, flags)) = optional() else {
            return Err(malformed(SegmentBranch::HeaderShortOfOptional, trace));
        };
        trace.segment(match fields.0 {
            [] => SegmentBranch::HeaderExact,
            _ => SegmentBranch::HeaderLonger,
        });
        let defaults = Defaults {
            duration: duration.unwrap_or(of.duration),
            size: size.unwrap_or(of.size),
            flags: flags.unwrap_or(of.flags),
        };
        trace.segment(match duration {
            Some(_) => SegmentBranch::DurationOfHeader,
            None => SegmentBranch::DurationOfCall,
        });
        trace.segment(match size {
            Some(_) => SegmentBranch::SizeOfHeader,
            None => SegmentBranch::SizeOfCall,
        });
        trace.segment(match flags {
            Some(_) => SegmentBranch::FlagsOfHeader,
            None => SegmentBranch::FlagsOfCall,
        });
        Ok(Self { id, defaults })
    }
}

/// The decode times (tfdt) met so far in a track fragment, unread.
#[derive(Clone, Copy)]
pub(super) enum DecodeTimes<'a> {
    None,
    One(&'a [u8]),
    Several,
}

impl<'a> DecodeTimes<'a> {
    pub(super) fn and(self, body: &'a [u8]) -> Self {
        match self {
            Self::None => Self::One(body),
            _ => Self::Several,
        }
    }

    /// Reads the only one.
    pub(super) fn read<T: Trace>(self, trace: &mut T) -> Result<u64, Refusal> {
        let body = match self {
            Self::One(body) => body,
            Self::None => return Err(malformed(SegmentBranch::DecodeTimeMissing, trace)),
            Self::Several => return Err(malformed(SegmentBranch::DecodeTimeDoubled, trace)),
        };
        let mut fields = Fields(body);
        let (branch, time) = match fields.version_and_flags() {
            None => (SegmentBranch::DecodeTimeShort, None),
            Some((0, _)) => match fields.u32() {
                None => (SegmentBranch::DecodeTimeShortOf32, None),
                Some(time) => (SegmentBranch::DecodeTime32, Some(u64::from(time))),
            },
            Some((1, _)) => match fields.u64() {
                None => (SegmentBranch::DecodeTimeShortOf64, None),
                time => (SegmentBranch::DecodeTime64, time),
            },
            Some(_) => (SegmentBranch::DecodeTimeVersion, None),
        };
        trace.segment(branch);
        time.ok_or(Refusal::Malformed)
    }
}
