//! Document 02, No. 6, "what to feed": the initialization bytes, or a part of a segment, never a copy.

use crate::trace::{FeedBranch, Trace};

/// What is to be fed to a decoder.
#[derive(Clone, Copy, Debug, PartialEq, Eq)]
pub enum Feed {
    /// The initialization bytes, all of them.
    Initialization,
    /// A part of the segment.
    Part {
        /// The place of its first byte.
        start: usize,
        /// The place after its last byte.
        end: usize,
    },
}

/// What to feed, of what is lent. A place that is not in the segment gives its empty part.
pub fn feed<'a>(initialization: &'a [u8], segment: &'a [u8], feed: Feed) -> &'a [u8] {
    feed_traced(initialization, segment, feed, &mut ())
}

/// [`feed`], telling its branches.
pub fn feed_traced<'a, T: Trace>(
    initialization: &'a [u8],
    segment: &'a [u8],
    feed: Feed,
    trace: &mut T,
) -> &'a [u8] {
    let Feed::Part { start, end } = feed else {
        trace.feed(FeedBranch::Initialization);
        return initialization;
    };
    if end > segment.len() {
        trace.feed(FeedBranch::Overruns);
        return &segment[..0];
    }
    if start > end {
        trace.feed(FeedBranch::StartAboveEnd);
        return &segment[..0];
    }
    trace.feed(match start == end {
        true => FeedBranch::EmptyPart,
        false => FeedBranch::Part,
    });
    &segment[start..end]
}
