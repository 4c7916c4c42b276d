//! Segments made by hand.

use galumper::{ListedFrame, SegmentTrack};

/// Track 1 of the segment, listed as track 7; a unit is a millisecond.
pub const OF: SegmentTrack = SegmentTrack {
    id: 1,
    track: 7,
    timescale: 1000,
    duration: 40,
    size: 9,
    flags: 0,
};

/// A track fragment of track 1: from 3 on, two samples of 5 and 6 bytes.
const TRAF: &[u8] = b"\0\0\0\x40traf\
    \0\0\0\x10tfhd\0\0\0\0\0\0\0\x01\
    \0\0\0\x10tfdt\0\0\0\0\0\0\0\x03\
    \0\0\0\x18trun\0\0\x02\0\0\0\0\x02\0\0\0\x05\0\0\0\x06";

/// What it lists.
pub const FRAMES: [ListedFrame; 2] = [frame(3_000, 5), frame(43_000, 6)];

const fn frame(time: i64, size: i64) -> ListedFrame {
    ListedFrame {
        track: 7,
        pts: time,
        dts: time,
        duration: 40_000,
        flagged: 1,
        size,
    }
}

/// The header of a box that announces so many bytes.
pub fn header(kind: &[u8; 4], size: u32) -> Vec<u8> {
    [size.to_be_bytes(), *kind].concat()
}

/// The same by 64 bits.
pub fn header_by_64(kind: &[u8; 4], size: u64) -> Vec<u8> {
    [&header(kind, 1)[..], &size.to_be_bytes()].concat()
}

pub fn boxed(kind: &[u8; 4], body: &[u8]) -> Vec<u8> {
    [&header(kind, 8 + body.len() as u32), body].concat()
}

pub fn boxed_by_64(kind: &[u8; 4], body: &[u8]) -> Vec<u8> {
    [&header_by_64(kind, 16 + body.len() as u64), body].concat()
}

/// A movie fragment that lists [`FRAMES`].
pub fn fragment() -> Vec<u8> {
    boxed(b"moof", TRAF)
}

/// Such a one of so many bytes.
pub fn sized(bytes: usize) -> Vec<u8> {
    boxed(b"moof", &filled(bytes - 8))
}

/// The same with a size of 64 bits.
pub fn sized_by_64(bytes: usize) -> Vec<u8> {
    boxed_by_64(b"moof", &filled(bytes - 16))
}

/// The body of a movie fragment, of so many bytes.
fn filled(bytes: usize) -> Vec<u8> {
    let free = vec![0; bytes - TRAF.len() - 8];
    [TRAF, &boxed(b"free", &free)].concat()
}

/// A segment with a box before its movie fragment, and media data that looks like another after it.
pub fn segment() -> Vec<u8> {
    let media = header(b"moof", 8);
    [
        boxed(b"styp", b"msdh"),
        fragment(),
        boxed_by_64(b"mdat", &media),
    ]
    .concat()
}
