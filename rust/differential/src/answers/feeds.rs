//! Counting feeds by what they met.

use second::Feed;

use super::met::{Meets, Tests};
use crate::fed::Fed;

impl Meets for Fed {
    const NAME: &'static str = "feed";
    const HEAD: &'static str = "Feed";
    const TESTS: Tests<Self> = &[
        ("the initialization", |fed| {
            fed.feed == Feed::Initialization && fed.initialization > 0
        }),
        ("the initialization, of no bytes", |fed| {
            fed.feed == Feed::Initialization && fed.initialization == 0
        }),
        ("all of the segment", |fed| {
            !fed.bytes.is_empty() && place(fed) == Some((0, fed.segment))
        }),
        ("a part from the first byte", |fed| {
            !fed.bytes.is_empty() && at(fed, |start, end, last| start == 0 && end < last)
        }),
        ("a part up to the last byte", |fed| {
            !fed.bytes.is_empty() && at(fed, |start, end, last| start > 0 && end == last)
        }),
        ("a part in the midst", |fed| {
            !fed.bytes.is_empty() && at(fed, |start, end, last| start > 0 && end < last)
        }),
        ("no bytes, in the midst", |fed| {
            at(fed, |start, end, last| {
                start == end && 0 < start && end < last
            })
        }),
        ("no bytes, at the end", |fed| {
            at(fed, |start, end, last| {
                start == end && 0 < start && end == last
            })
        }),
        ("no bytes, of a segment that has none", |fed| {
            place(fed).is_some() && fed.segment == 0
        }),
        ("overruns by a byte", |fed| {
            at(fed, |start, end, last| start < last && end == last + 1)
        }),
        ("overruns, from the end on", |fed| {
            at(fed, |start, end, last| start == last && end > last)
        }),
        ("overruns, from beyond", |fed| {
            at(fed, |start, end, last| start > last && end >= start)
        }),
        ("overruns, up to the greatest place", |fed| {
            at(fed, |start, end, last| start < last && end == usize::MAX)
        }),
        ("overruns, in the segment by its last 32 bits", |fed| {
            at(fed, |start, end, last| {
                let [start, end] = [start, end].map(|place| place as u32 as usize);
                start < end && end <= last
            }) && fed.bytes.is_empty()
        }),
        ("start above end, in the segment", |fed| {
            at(fed, |start, end, last| start > end && start <= last)
        }),
        ("start above end, beyond the segment", |fed| {
            at(fed, |start, end, last| start > last && end <= last)
        }),
        ("start above end, which overruns", |fed| {
            at(fed, |start, end, last| start > end && end > last)
        }),
    ];
}

/// The place of a part.
fn place(fed: &Fed) -> Option<(usize, usize)> {
    match fed.feed {
        Feed::Initialization => None,
        Feed::Part { start, end } => Some((start, end)),
    }
}

/// Whether start, end and the segment's end stand so.
fn at(fed: &Fed, stand: fn(usize, usize, usize) -> bool) -> bool {
    place(fed).is_some_and(|(start, end)| stand(start, end, fed.segment))
}
