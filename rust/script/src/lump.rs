//! A lump as scripts have it, and the buffer that is lent for it.

use second::{SegmentTrack, LUMP_BYTES};

/// No buffer that a script lends is longer than this.
pub(crate) const LONGEST_BUFFER: usize = 131_072;

/// What the buffer holds at first.
const FIRST: u8 = 0xa5;

/// A lump of a segment, with what is lent for it.
#[derive(Clone, Debug, PartialEq)]
pub struct Lump {
    /// Whether it is the last.
    pub last: bool,
    /// The track that is listed at the end.
    pub of: SegmentTrack,
    /// Its bytes.
    pub bytes: Vec<u8>,
    /// How many places the frame list has.
    pub places: usize,
    /// How many bytes the buffer has.
    pub buffer: usize,
}

/// The buffer, lent again and again. What a call leaves in it is there in the next.
#[derive(Default)]
pub(crate) struct LumpBuffer {
    bytes: Vec<u8>,
    /// What it held before the last call.
    before: Vec<u8>,
}

impl LumpBuffer {
    /// So many of its bytes, from the first.
    pub(crate) fn lend(&mut self, length: usize) -> &mut [u8] {
        self.bytes.resize(LONGEST_BUFFER, FIRST);
        self.before.clone_from(&self.bytes);
        &mut self.bytes[..length]
    }

    /// Whether the call that has just returned changed a byte that it must leave alone: one past the
    /// first 65,536, or on a refusal any.
    pub(crate) fn is_touched(&self, refused: bool) -> bool {
        let free = if refused { 0 } else { LUMP_BYTES };
        self.bytes[free..] != self.before[free..]
    }
}

#[cfg(test)]
mod tests {
    use super::*;

    /// Whether a call that writes these bytes is told, where it is not refused and where it is.
    fn told(writes: &[usize]) -> [bool; 2] {
        let mut buffer = LumpBuffer::default();
        let bytes = buffer.lend(LONGEST_BUFFER);
        for &place in writes {
            bytes[place] = 0;
        }
        [false, true].map(|refused| buffer.is_touched(refused))
    }

    #[test]
    fn only_stray_writes_are_told() {
        assert_eq!(told(&[]), [false, false]);
        assert_eq!(told(&[0, LUMP_BYTES - 1]), [false, true]);
        assert_eq!(told(&[LUMP_BYTES]), [true, true]);
        assert_eq!(told(&[LONGEST_BUFFER - 1]), [true, true]);
    }

    #[test]
    fn what_a_call_leaves_is_kept() {
        let mut buffer = LumpBuffer::default();
        buffer.lend(LUMP_BYTES)[7] = 1;
        assert_eq!(buffer.lend(LUMP_BYTES + 1)[6..9], [FIRST, 1, FIRST]);
        assert!(!buffer.is_touched(true));
    }
}
