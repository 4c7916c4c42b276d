//! How many frames a track's report takes, beside the report itself.

use galumper::{Buffer, Fate, Kind, Offered, Range, Refusal, FATES, RANGES};

/// What no call writes.
const RANGE: Range = Range { start: 7, end: 7 };

/// A buffer of two tracks. The first has these frames of 100 microseconds, by presentation and decode
/// time; the second has none.
fn holding(frames: &[(i64, i64)]) -> Box<Buffer> {
    let mut buffer = galumper::create(&[Kind::VIDEO, Kind::AUDIO]).expect("two tracks");
    for &(pts, dts) in frames {
        let frame = Offered {
            track: 1,
            flagged: true,
            duration: 100,
            pts,
            dts,
        };
        assert_eq!(buffer.append(frame, &mut [Fate::default(); FATES]), Ok(0));
    }
    buffer
}

/// With each number of places, how many frames are taken; the report is refused as long as there are
/// more ranges.
fn beside_the_report<const N: usize>(buffer: &Buffer, track: u32, ranges: usize) -> [usize; N] {
    let before = buffer.clone();
    let taken = std::array::from_fn(|places| {
        let reported = buffer.track_ranges(track, &mut vec![RANGE; places]);
        match places < ranges {
            true => assert_eq!(reported, Err(Refusal::ShortList), "{places}"),
            false => assert_eq!(reported, Ok(ranges), "{places}"),
        }
        buffer.walked(track, places).expect("a count")
    });
    assert_eq!(*buffer, before);
    taken
}

#[test]
fn shown_as_they_are_decoded() {
    let buffer = holding(&[(0, 0), (100, 100), (201, 200), (301, 300), (500, 400)]);
    assert_eq!(beside_the_report(&buffer, 1, 3), [1, 3, 5, 5, 5]);
}

#[test]
fn shown_in_another_order_than_they_are_decoded() {
    let buffer = holding(&[
        (0, 0),
        (300, 100),
        (100, 200),
        (700, 300),
        (500, 400),
        (600, 500),
    ]);
    assert_eq!(beside_the_report(&buffer, 1, 3), [1, 3, 4, 6, 6]);
}

#[test]
fn of_equal_times_one_is_the_first() {
    let buffer = holding(&[(0, 0), (0, 0), (200, 100), (200, 100), (400, 200)]);
    assert_eq!(beside_the_report(&buffer, 1, 3), [1, 3, 5, 5]);
}

#[test]
fn a_track_without_frames() {
    let buffer = holding(&[(0, 0)]);
    assert_eq!(beside_the_report(&buffer, 2, 0), [0, 0]);
}

#[test]
fn any_number_of_places() {
    let buffer = holding(&[(0, 0), (200, 100)]);
    for places in [RANGES, RANGES + 1, u32::MAX as usize + 1, usize::MAX] {
        assert_eq!(buffer.walked(1, places), Ok(2), "{places}");
    }
}

#[test]
fn refused_1_then_3_and_never_10() {
    let mut buffer = holding(&[(0, 0)]);
    for (track, places) in [(0, 0), (3, 0), (3, RANGES), (u32::MAX, usize::MAX)] {
        assert_eq!(buffer.walked(track, places), Err(Refusal::NoTrack));
    }
    buffer.head.mode = 2;
    for (track, places) in [(0, 0), (1, 0), (1, RANGES), (3, 0)] {
        assert_eq!(buffer.walked(track, places), Err(Refusal::IllFormed));
    }
}
