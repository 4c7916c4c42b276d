//! Document 02, No. 6: what to feed, and that it is no copy.

use second::{feed, Feed};

const INITIALIZATION: [u8; 3] = [1, 2, 3];

const SEGMENT: [u8; 5] = [10, 11, 12, 13, 14];

/// What a place of the segment gives.
fn part(start: usize, end: usize) -> &'static [u8] {
    feed(&INITIALIZATION, &SEGMENT, Feed::Part { start, end })
}

/// Two slices are one and the same.
fn same(one: &[u8], other: &[u8]) -> bool {
    one.as_ptr_range() == other.as_ptr_range()
}

#[test]
fn the_initialization_whole() {
    let fed = feed(&INITIALIZATION, &SEGMENT, Feed::Initialization);
    assert!(same(fed, &INITIALIZATION));
    assert!(same(feed(&[], &SEGMENT, Feed::Initialization), &[]));
}

#[test]
fn every_part_of_the_segment() {
    for start in 0..=SEGMENT.len() {
        for end in start..=SEGMENT.len() {
            assert!(same(part(start, end), &SEGMENT[start..end]));
        }
    }
}

#[test]
fn a_place_that_is_not_in_the_segment() {
    for (start, end) in [
        (0, 6),
        (4, 6),
        (5, 6),
        (6, 6),
        (6, 7),
        (0, usize::MAX),
        (usize::MAX, usize::MAX),
        (usize::MAX, 0),
        (usize::MAX, 5),
        (6, 5),
        (5, 4),
        (1, 0),
    ] {
        assert!(same(part(start, end), &SEGMENT[..0]), "{start} {end}");
    }
}

#[test]
fn a_segment_without_bytes() {
    for (start, end) in [(0, 0), (0, 1), (1, 0), (1, 1)] {
        let fed = feed(&INITIALIZATION, &SEGMENT[5..], Feed::Part { start, end });
        assert!(same(fed, &SEGMENT[5..]), "{start} {end}");
    }
}
