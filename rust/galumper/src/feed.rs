//! What to feed a decoder: of initialization bytes and a segment, both lent, the first whole or a part
//! of the second, never a copy.

use crate::foreign;

/// What is to be fed.
#[derive(Clone, Copy, Debug, PartialEq, Eq)]
pub enum Feed {
    /// The initialization bytes, all of them.
    Initialization,
    /// A part of the segment.
    Part {
        /// The place of its first byte.
        start: usize,
        /// The place after its last byte.
        end: usize,
    },
}

/// The initialization bytes, or a part of the segment, as they were lent: nothing is copied. A place
/// that overruns the segment, or starts above its end, gives the empty part at the segment's start, and
/// never the rest that is there.
///
/// ```
/// use galumper::{feed, Feed};
///
/// let (initialization, segment) = (b"\0\0\0\x08moov", b"\0\0\0\x0dmdatframe");
/// assert_eq!(feed(initialization, segment, Feed::Initialization), initialization);
/// assert_eq!(feed(initialization, segment, Feed::Part { start: 8, end: 13 }), b"frame");
/// assert_eq!(feed(initialization, segment, Feed::Part { start: 8, end: 14 }), b"");
/// ```
pub fn feed<'a>(initialization: &'a [u8], segment: &'a [u8], feed: Feed) -> &'a [u8] {
    let (lent, whole, start, end) = match feed {
        Feed::Initialization => (initialization, 1, 0, 0),
        Feed::Part { start, end } => (segment, 0, start, end),
    };
    let (first, size) = (initialization.as_ptr(), initialization.len());
    let (second, length) = (segment.as_ptr(), segment.len());
    // SAFETY: pointers and lengths are those of slices, and the function writes to neither.
    let part =
        unsafe { foreign::galumper_lent_feed(first, size, second, length, whole, start, end) };
    &lent[part.start..][..part.length]
}
