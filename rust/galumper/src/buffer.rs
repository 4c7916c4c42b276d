//! The buffer as numbers, laid out as in `include/galumper.h`. Any numbers may stand in it: a
//! buffer that is not well-formed has the call refused.

use std::mem::{self, offset_of};

use crate::names::Kind;

/// The places of the store over all tracks.
pub const PLACES: usize = 1024;

/// The most tracks of a buffer.
pub const TRACKS: usize = 4;

/// The times of the stored frames: presentation and decode time, after the offset.
pub type Times = [[i64; 2]; PLACES];

/// The other numbers of the stored frames: track, from 1; flag, 1 for a random access point;
/// duration; the frame's number, from 1; and the group in which it was stored, from 0.
pub type Tags = [[u32; 5]; PLACES];

/// A coded frame as offered to an append. Times are microseconds.
#[repr(C)]
#[derive(Clone, Copy, Debug, PartialEq, Eq)]
pub struct Offered {
    /// The track, from 1.
    pub track: u32,
    /// Whether it is a random access point.
    pub flagged: bool,
    /// Duration.
    pub duration: u32,
    /// Presentation time.
    pub pts: i64,
    /// Decode time.
    pub dts: i64,
}

/// A track. The last decode time, the last duration and the highest end are set together.
#[repr(C)]
#[derive(Clone, Copy, Debug, Default, PartialEq, Eq)]
pub struct Track {
    /// What it carries.
    pub kind: Kind,
    /// 1: the three are set.
    pub known: u8,
    /// 1: it waits for a random access point.
    pub need: u16,
    /// The last duration.
    pub duration: u32,
    /// The last decode time.
    pub dts: i64,
    /// The highest end.
    pub end: i64,
}

/// Where the next group of frames starts, the number of the group, and its end so far.
#[repr(C)]
#[derive(Clone, Copy, Debug, Default, PartialEq, Eq)]
pub struct Group {
    /// 1: the start is set.
    pub begun: u32,
    /// The number, which the frames stored take: one more after each break, each abort, and each
    /// removal that takes a track's last decode time.
    pub number: u32,
    /// The start.
    pub start: i64,
    /// The end.
    pub end: i64,
}

/// A setting: the bits of the double as it was given, beside its microseconds. The bits of a NaN
/// are not well-formed.
#[repr(C)]
#[derive(Clone, Copy, Debug, Default, PartialEq, Eq)]
pub struct Setting {
    /// The double's bits.
    pub bits: u64,
    /// Its microseconds: the nearest, and half a microsecond goes towards plus infinity.
    pub micros: i64,
}

impl Setting {
    /// The double as it was given.
    pub fn seconds(self) -> f64 {
        f64::from_bits(self.bits)
    }
}

/// Offset and append window.
#[repr(C)]
#[derive(Clone, Copy, Debug, Default, PartialEq, Eq)]
pub struct Settings {
    /// The timestamp offset.
    pub offset: Setting,
    /// The window's start.
    pub start: Setting,
    /// 1: there is a window end.
    pub bounded: u64,
    /// The bits of the double given for it; 0 where there is none.
    pub end: u64,
    /// Its microseconds; 0 where there is none.
    pub limit: i64,
}

/// Everything but the frames.
#[repr(C)]
#[derive(Clone, Copy, Debug, Default, PartialEq, Eq)]
pub struct Head {
    /// The track places; zeros past the count.
    pub tracks: [Track; TRACKS],
    /// How many of the track places are in use.
    pub ntracks: usize,
    /// How many of the frame places are in use.
    pub nframes: usize,
    /// The number of the mode.
    pub mode: u32,
    /// The last frame number given: that of the frame last appended, dropped or not.
    pub last: u32,
    /// The group.
    pub group: Group,
    /// The settings.
    pub settings: Settings,
}

/// A buffer. A stored frame has a row in each array, at the same place; the rows are sorted by
/// track, decode time and number, and those past the count are zeros. No byte of it is padding.
#[repr(C)]
#[derive(Clone, Debug, PartialEq, Eq)]
pub struct Buffer {
    /// Everything but the frames.
    pub head: Head,
    /// The frames' times.
    pub times: Times,
    /// The frames' other numbers.
    pub tags: Tags,
}

/// The bytes of a buffer.
pub const SIZE: usize = size_of::<Buffer>();

/// The bytes of a buffer before version 0.6.0: its rows of tags had no group.
pub const FORMER_SIZE: usize = SIZE - PLACES * 4;

// No padding: each struct has the bytes of its numbers.
const _: () = assert!(size_of::<Track>() == 1 + 1 + 2 + 4 + 2 * 8);
const _: () = assert!(size_of::<Group>() == 2 * 4 + 2 * 8 && size_of::<Settings>() == 7 * 8);
const _: () = assert!(size_of::<Head>() == TRACKS * 24 + 2 * 8 + 2 * 4 + 24 + 56);
const _: () = assert!(SIZE == size_of::<Head>() + PLACES * (2 * 8 + 5 * 4));

impl Buffer {
    /// A zeroed buffer, made where it stays. It has no track, so that every call refuses it.
    pub(crate) fn zeroed() -> Box<Self> {
        // SAFETY: a buffer is numbers, and zeros are numbers.
        unsafe { Box::new_zeroed().assume_init() }
    }

    /// Its bytes, to be saved.
    pub fn as_bytes(&self) -> &[u8; SIZE] {
        // SAFETY: a buffer is numbers without a byte of padding, and so many bytes.
        unsafe { &*std::ptr::from_ref(self).cast() }
    }

    /// The buffer that these bytes are, as they were saved. Any bytes may be loaded: where they are
    /// no well-formed buffer, every call on it is refused. Of those saved before version 0.9.0 some are
    /// none any more: see [`Buffer::made_again`].
    pub fn from_bytes(bytes: &[u8; SIZE]) -> Box<Self> {
        let mut buffer = Self::zeroed();
        // SAFETY: any bytes are numbers, and the buffer has so many.
        unsafe { *std::ptr::from_mut(&mut *buffer).cast() = *bytes };
        buffer
    }

    /// The buffer that was saved as these bytes before version 0.6.0, all of it in group 0. Any bytes
    /// may be loaded, as by [`Buffer::from_bytes`].
    pub fn from_former_bytes(bytes: &[u8; FORMER_SIZE]) -> Box<Self> {
        let mut widened = vec![0; SIZE];
        let (before, tags) = bytes.split_at(offset_of!(Self, tags));
        widened[..before.len()].copy_from_slice(before);
        let rows = widened[before.len()..].chunks_exact_mut(5 * 4);
        for (row, former) in rows.zip(tags.chunks_exact(4 * 4)) {
            row[..former.len()].copy_from_slice(former);
        }
        let mut buffer = Self::from_bytes(widened.first_chunk().expect("bytes of a buffer"));
        // The number stands where `begun` had its upper half. What was not well-formed by that is
        // not to become so.
        let group = &mut buffer.head.group;
        if mem::take(&mut group.number) != 0 {
            group.begun = u32::MAX;
        }
        buffer
    }
}
