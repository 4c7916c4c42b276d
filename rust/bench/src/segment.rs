//! The segments that are timed, made as a recorder makes them: one run, and each sample with its
//! duration, size, flags and composition offset.

use second::SegmentTrack;

/// Media time units in a second.
pub const TIMESCALE: u32 = 90_000;

/// A frame lasts 40 ms.
const FRAME: u32 = TIMESCALE / FRAMES_A_SECOND;

/// The flags of a sample that others depend on alone, and of one that is no random access point.
const SYNC: u32 = 0x200_0000;
const NON_SYNC: u32 = 0x101_0000;

/// A random access point each second.
const FRAMES_A_SECOND: u32 = 25;

/// The track that is listed; it is the only one.
pub const TRACK: SegmentTrack = SegmentTrack {
    id: 1,
    track: 1,
    timescale: TIMESCALE,
    duration: FRAME,
    size: 0,
    flags: NON_SYNC,
};

/// A segment of so many frames.
pub fn segment(frames: u32) -> Vec<u8> {
    sized_segment(frames, size)
}

/// A segment of so many frames with so many bytes each.
pub fn heavy_segment(frames: u32, bytes: u32) -> Vec<u8> {
    sized_segment(frames, |_| bytes)
}

/// A segment whose frames have the sizes of their places.
fn sized_segment(frames: u32, size: impl Fn(u32) -> u32) -> Vec<u8> {
    // The data offset counts from the movie fragment's first byte to the media data's body.
    let data_offset = movie_fragment(frames, 0, &size).len() as u32 + 8;
    let moof = movie_fragment(frames, data_offset, &size);
    let payload = (0..frames).map(size).sum::<u32>();
    let styp = boxed(b"styp", &[b"msdh\0\0\0\0msdhmsix"]);
    [styp, moof, boxed(b"mdat", &[&vec![0; payload as usize]])].concat()
}

fn movie_fragment(frames: u32, data_offset: u32, size: impl Fn(u32) -> u32) -> Vec<u8> {
    let tfhd = full(b"tfhd", 0, 0x2_0020, &[TRACK.id, NON_SYNC]);
    let tfdt = full(b"tfdt", 1, 0, &[0, 0]);
    let mut run = vec![frames, data_offset];
    run.extend((0..frames).flat_map(|place| [FRAME, size(place), flags(place), offset(place)]));
    let traf = boxed(b"traf", &[&tfhd, &tfdt, &full(b"trun", 1, 0xf01, &run)]);
    boxed(b"moof", &[&full(b"mfhd", 0, 0, &[1]), &traf])
}

/// Random access points are larger.
fn size(place: u32) -> u32 {
    match place % FRAMES_A_SECOND {
        0 => 400,
        other => 60 + other,
    }
}

fn flags(place: u32) -> u32 {
    match place % FRAMES_A_SECOND {
        0 => SYNC,
        _ => NON_SYNC,
    }
}

/// After a random access point, each frame is decoded before two that are shown before it. None is
/// shown earlier than it is decoded, as some readers move all times where one is.
fn offset(place: u32) -> u32 {
    match place % FRAMES_A_SECOND {
        0 => FRAME,
        other if other % 3 == 1 => 3 * FRAME,
        _ => 0,
    }
}

/// A box of some parts.
pub fn boxed(kind: &[u8; 4], parts: &[&[u8]]) -> Vec<u8> {
    let body = parts.concat();
    let size = 8 + body.len() as u32;
    [&size.to_be_bytes(), &kind[..], &body].concat()
}

/// A box of words, after its version and flags.
pub fn full(kind: &[u8; 4], version: u8, flags: u32, words: &[u32]) -> Vec<u8> {
    let head = u32::from(version) << 24 | flags;
    boxed(kind, &[&self::words(&[head]), &self::words(words)])
}

/// Numbers of 32 bits.
pub fn words(words: &[u32]) -> Vec<u8> {
    words.iter().flat_map(|word| word.to_be_bytes()).collect()
}
