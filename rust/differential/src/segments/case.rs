//! A segment, and the call that asks for its frames.

use script::digits;
use second::SegmentTrack;

/// A segment, what is asked of it, and how many places are lent.
#[derive(Clone, Debug)]
pub(crate) struct Case {
    pub(crate) of: SegmentTrack,
    pub(crate) bytes: Vec<u8>,
    pub(crate) places: usize,
}

impl Case {
    /// The call as a script has it.
    pub(crate) fn line(&self) -> String {
        let asked = asked(self.of, &self.bytes);
        format!("segment {asked} places={}", self.places)
    }

    /// The calls as a script has them by which the segment comes in two lumps.
    pub(crate) fn lump_lines(&self) -> [String; 2] {
        let (first, second) = self.bytes.split_at(self.bytes.len() / 2);
        let [first, second] = [first, second].map(|lump| asked(self.of, lump));
        [
            format!("lump more {first}"),
            format!("lump last {second} places={}", self.places),
        ]
    }
}

/// The words of a script for a track and the bytes of its segment, or of a lump.
pub(crate) fn asked(of: SegmentTrack, bytes: &[u8]) -> String {
    let SegmentTrack {
        id,
        track,
        timescale,
        duration,
        size,
        flags,
    } = of;
    let bytes = digits(bytes);
    format!("{id} {track} {timescale} {duration} {size} {flags} {bytes}")
}
