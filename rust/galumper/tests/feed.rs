//! What is fed: the initialization bytes or a part of the segment, in the very bytes that were lent.

use galumper::{feed, Feed};

const INITIALIZATION: &[u8] = b"ftypmoov";
const SEGMENT: &[u8] = b"moofmdatframes";

/// What is fed of both, by the place of the segment.
fn part(start: usize, end: usize) -> &'static [u8] {
    feed(INITIALIZATION, SEGMENT, Feed::Part { start, end })
}

/// Whether two are the same bytes, and not only equal ones.
fn same(one: &[u8], other: &[u8]) -> bool {
    one.as_ptr_range() == other.as_ptr_range()
}

#[test]
fn the_initialization_bytes() {
    assert!(same(
        feed(INITIALIZATION, SEGMENT, Feed::Initialization),
        INITIALIZATION
    ));
    assert!(same(
        feed(INITIALIZATION, &[], Feed::Initialization),
        INITIALIZATION
    ));
    let empty = &INITIALIZATION[3..3];
    assert!(same(feed(empty, SEGMENT, Feed::Initialization), empty));
}

#[test]
fn every_place_of_the_segment() {
    for end in 0..=SEGMENT.len() {
        for start in 0..=end {
            assert!(
                same(part(start, end), &SEGMENT[start..end]),
                "{start}..{end}"
            );
        }
    }
}

#[test]
fn a_place_that_is_not_in_the_segment() {
    let (length, most) = (SEGMENT.len(), usize::MAX);
    for (start, end) in [
        // It passes the segment's end: also by a byte, also where it begins there, also without a byte.
        (0, length + 1),
        (length - 1, length + 1),
        (length, length + 1),
        (length + 1, length + 1),
        (length + 1, length + 2),
        (0, most),
        (length, most),
        (most - 1, most),
        (most, most),
        // It ends before its start.
        (1, 0),
        (9, 8),
        (length, 0),
        (length + 1, length),
        (most, 0),
        (most, length),
        (most, most - 1),
    ] {
        assert!(same(part(start, end), &SEGMENT[..0]), "{start}..{end}");
    }
}

#[test]
fn a_segment_without_a_byte() {
    let empty = &SEGMENT[4..4];
    for (start, end) in [(0, 0), (0, 1), (1, 1), (1, 0), (usize::MAX, usize::MAX)] {
        let fed = feed(INITIALIZATION, empty, Feed::Part { start, end });
        assert!(same(fed, empty), "{start}..{end}");
    }
}

#[test]
fn the_same_bytes_lent_twice() {
    assert!(same(feed(SEGMENT, SEGMENT, Feed::Initialization), SEGMENT));
    let fed = feed(SEGMENT, SEGMENT, Feed::Part { start: 4, end: 8 });
    assert!(same(fed, &SEGMENT[4..8]));
    assert_eq!(fed, b"mdat");
}

#[test]
fn what_is_fed_lives_as_long_as_what_was_lent() {
    let segment = SEGMENT.to_vec();
    let frames: Vec<&[u8]> = {
        let initialization = INITIALIZATION;
        let places = [(0, 4), (4, 8), (8, 14)];
        let fed = |(start, end)| feed(initialization, &segment, Feed::Part { start, end });
        places.map(fed).to_vec()
    };
    assert_eq!(frames.concat(), segment);
    assert!(same(frames[2], &segment[8..]));
}
