//! Counting seeks by what they met.

use second::Frame;

use super::met::{Meets, Tests};
use crate::sought::Sought;

impl Meets for Sought {
    const NAME: &'static str = "seek";
    const HEAD: &'static str = "Seek";
    const TESTS: Tests<Self> = &[
        ("at its target's first microsecond", |seek| {
            found(seek) && seek.target.is_some_and(|frame| frame.pts == seek.instant)
        }),
        ("at its target's last microsecond", |seek| {
            found(seek)
                && seek
                    .target
                    .is_some_and(|frame| frame.end() - 1 == seek.instant)
        }),
        ("to decode, all of several frames", |seek| {
            seek.decoded.len() > 1 && seek.decoded.len() == seek.frames.len()
        }),
        ("to decode, over 255 frames", |seek| {
            seek.decoded.len() > 255
        }),
        ("to decode, of a group with a flagged frame after", |seek| {
            found(seek) && point_after(seek)
        }),
        ("15, the track has no frame", |seek| seek.frames.is_empty()),
        ("15, before all frames", |seek| {
            none_covers(seek) && seek.frames.iter().all(|frame| seek.instant < frame.pts)
        }),
        ("15, after all frames", |seek| {
            none_covers(seek) && seek.frames.iter().all(|frame| frame.end() <= seek.instant)
        }),
        ("15, between frames", |seek| {
            none_covers(seek)
                && seek.frames.iter().any(|frame| seek.instant < frame.pts)
                && seek.frames.iter().any(|frame| frame.end() <= seek.instant)
        }),
        ("15, at a frame's end", |seek| {
            none_covers(seek) && seek.frames.iter().any(|frame| frame.end() == seek.instant)
        }),
        ("15, a frame of another track covers", |seek| {
            seek.target.is_none() && seek.elsewhere
        }),
        ("15, the least instant", |seek| seek.instant == i64::MIN),
        ("15, the greatest instant", |seek| seek.instant == i64::MAX),
        ("15, no flagged frame on the track", |seek| {
            seek.lacks_point() && points(seek).next().is_none()
        }),
        ("15, a flagged frame of another group before", |seek| {
            seek.lacks_point() && points(seek).any(|frame| !after(seek, frame))
        }),
        ("15, a flagged frame of the group after", |seek| {
            seek.lacks_point() && point_after(seek)
        }),
        ("15, another that covers would have a start", |seek| {
            seek.lacks_point() && points(seek).any(|frame| covers(seek, frame))
        }),
    ];
}

fn found(seek: &Sought) -> bool {
    !seek.decoded.is_empty()
}

/// The first reason for 15, on a track with frames.
fn none_covers(seek: &Sought) -> bool {
    seek.target.is_none() && !seek.frames.is_empty()
}

fn points(seek: &Sought) -> impl Iterator<Item = &Frame> {
    seek.frames.iter().filter(|frame| frame.flagged)
}

fn covers(seek: &Sought, frame: &Frame) -> bool {
    (frame.pts..frame.end()).contains(&seek.instant)
}

/// Whether a frame stands after the target in store order.
fn after(seek: &Sought, frame: &Frame) -> bool {
    seek.target
        .is_some_and(|target| (target.dts, target.number) < (frame.dts, frame.number))
}

/// Whether a flagged frame of the target's group stands after it.
fn point_after(seek: &Sought) -> bool {
    points(seek).any(|frame| {
        after(seek, frame)
            && seek
                .target
                .is_some_and(|target| target.group == frame.group)
    })
}
