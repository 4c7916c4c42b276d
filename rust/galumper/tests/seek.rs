//! Where to start decoding: which frame is the target, which random access point leads to it, and what
//! refusal 15 says.

use galumper::{
    Buffer, Fate, Kind, Mode, Offered, Refusal, Start, FATES, PLACES, RANGES, SIZE, TRACKS,
};

const NO_START: Result<Start, Refusal> = Err(Refusal::NoStart);

fn found(target: u32, flagged: u32, count: usize) -> Result<Start, Refusal> {
    Ok(Start {
        target,
        flagged,
        count,
    })
}

fn fresh() -> Box<Buffer> {
    galumper::create(&[Kind::VIDEO, Kind::AUDIO]).expect("two tracks")
}

/// A random access point of track 1, of 100 microseconds.
fn point(pts: i64, dts: i64) -> Offered {
    Offered {
        track: 1,
        flagged: true,
        duration: 100,
        pts,
        dts,
    }
}

/// A frame that is none.
fn other(pts: i64, dts: i64) -> Offered {
    Offered {
        flagged: false,
        ..point(pts, dts)
    }
}

/// Appends frames, each of which is stored and takes the place of none.
fn append(buffer: &mut Buffer, frames: &[Offered]) {
    for &frame in frames {
        assert_eq!(buffer.append(frame, &mut [Fate::default(); FATES]), Ok(0));
    }
}

fn holding(frames: &[Offered]) -> Box<Buffer> {
    let mut buffer = fresh();
    append(&mut buffer, frames);
    buffer
}

/// Two groups among each other, in store order 1, 3, 2, 4, 5: of the first group the frames 1 and 2, of
/// the second the others.
fn two_groups() -> Box<Buffer> {
    let mut buffer = holding(&[point(0, 0), other(500, 150)]);
    assert_eq!(buffer.abort(), Ok(()));
    append(
        &mut buffer,
        &[point(100, 50), other(200, 200), point(300, 250)],
    );
    let numbers = [0, 1, 2, 3, 4].map(|place| buffer.tags[place][3]);
    assert_eq!(numbers, [1, 3, 2, 4, 5]);
    buffer
}

/// The rows from the random access point to the target that are of their group, as a console walks them.
fn to_decode(buffer: &Buffer, start: Start) -> Vec<[u32; 5]> {
    let place = |number| {
        let mut rows = buffer.tags[..buffer.head.nframes].iter();
        rows.position(|row| row[3] == number)
            .expect("a stored frame")
    };
    let rows = &buffer.tags[place(start.flagged)..=place(start.target)];
    let own = rows.iter().filter(|row| row[4] == rows[0][4]);
    own.copied().collect()
}

#[test]
fn a_frame_is_shown_from_its_start_up_to_its_end() {
    let buffer = holding(&[
        point(0, 0),
        other(100, 100),
        other(201, 200),
        point(301, 300),
    ]);
    for (instants, said) in [
        ([-1, i64::MIN], NO_START),
        ([0, 99], found(1, 1, 1)),
        ([100, 199], found(2, 1, 2)),
        ([200, 200], NO_START),
        ([201, 300], found(3, 1, 3)),
        ([301, 400], found(4, 4, 1)),
        ([401, i64::MAX], NO_START),
    ] {
        for instant in instants {
            assert_eq!(buffer.seek(1, instant), said, "{instant}");
        }
    }
}

#[test]
fn shown_in_another_order_than_they_are_decoded() {
    let buffer = holding(&[
        point(0, 0),
        other(300, 100),
        other(100, 200),
        other(200, 300),
    ]);
    let said = [0, 100, 200, 300].map(|instant| buffer.seek(1, instant));
    let wanted = [
        found(1, 1, 1),
        found(3, 1, 3),
        found(4, 1, 4),
        found(2, 1, 2),
    ];
    assert_eq!(said, wanted);
}

#[test]
fn of_several_the_one_presented_last_then_numbered_last() {
    let frames = [point(0, 0), other(50, 50), other(50, 100), other(20, 150)];
    let buffer = holding(&frames);
    assert_eq!(buffer.seek(1, 75), found(3, 1, 3), "3 and not 4");
    assert_eq!(buffer.seek(1, 149), found(3, 1, 3), "3 and not 2");
    assert_eq!(buffer.seek(1, 25), found(4, 1, 4), "4 and not 1");
    assert_eq!(buffer.seek(1, 19), found(1, 1, 1));
    // With equal decode times too: the later number stands behind.
    let buffer = holding(&[point(0, 0), point(0, 0), other(0, 0)]);
    assert_eq!(buffer.seek(1, 0), found(3, 2, 2));
}

#[test]
fn of_equal_times_the_greatest_number_where_store_order_has_another() {
    let mut buffer = two_groups();
    for place in 0..5 {
        buffer.times[place][0] = 700;
    }
    assert_eq!(buffer.seek(1, 700), found(5, 5, 1));
    // The last number is that of the third row now, which leads back past the second.
    buffer.tags[2][3] = 9;
    buffer.head.last = 9;
    assert_eq!(buffer.seek(1, 700), found(9, 1, 2));
}

#[test]
fn a_long_frame_under_a_short_one() {
    let long = Offered {
        duration: 1_000,
        ..point(0, 0)
    };
    let buffer = holding(&[long, other(400, 100)]);
    let said = [0, 399, 400, 499, 500, 999, 1_000].map(|instant| buffer.seek(1, instant));
    let (first, second) = (found(1, 1, 1), found(2, 1, 2));
    assert_eq!(said, [first, first, second, second, first, first, NO_START]);
}

#[test]
fn groups_among_each_other() {
    let buffer = two_groups();
    assert_eq!(buffer.seek(1, 550), found(2, 1, 2), "past frame 3");
    assert_eq!(buffer.seek(1, 250), found(4, 3, 2), "past frame 2");
    assert_eq!(buffer.seek(1, 150), found(3, 3, 1));
    assert_eq!(buffer.seek(1, 399), found(5, 5, 1));
    assert_eq!(buffer.seek(1, 0), found(1, 1, 1));
    assert_eq!(buffer.seek(1, 400), NO_START);
}

#[test]
fn tracks_by_themselves() {
    let on_two = |frame| Offered { track: 2, ..frame };
    let frames = [
        point(0, 0),
        on_two(point(50, 50)),
        other(100, 100),
        on_two(other(150, 150)),
    ];
    let buffer = holding(&frames);
    let said = |track| [0, 60, 120, 160, 200].map(|instant| buffer.seek(track, instant));
    let (first, third) = (found(1, 1, 1), found(3, 1, 2));
    assert_eq!(said(1), [first, first, third, third, NO_START]);
    let (second, fourth) = (found(2, 2, 1), found(4, 2, 2));
    assert_eq!(said(2), [NO_START, second, second, fourth, fourth]);
}

#[test]
fn a_walk_over_the_rows_has_the_frames_to_decode() {
    let mut buffer = two_groups();
    append(&mut buffer, &[other(380, 300), other(360, 350)]);
    for instant in 0..700 {
        let Ok(start) = buffer.seek(1, instant) else {
            continue;
        };
        let rows = to_decode(&buffer, start);
        assert_eq!(rows.len(), start.count, "{instant}");
        assert_eq!(rows[0][3], start.flagged, "{instant}");
        assert_eq!(rows[start.count - 1][3], start.target, "{instant}");
        let flags = rows.iter().map(|row| row[1]);
        assert_eq!(flags.sum::<u32>(), 1, "{instant}: the first alone is one");
    }
}

#[test]
fn as_many_as_the_track_has() {
    let mut buffer = holding(&[point(0, 0)]);
    let on_two = |n: i64| Offered {
        track: 2,
        ..point(100 * n, 100 * n)
    };
    append(&mut buffer, &[on_two(0), on_two(1)]);
    let others: Vec<_> = (1..PLACES as i64 - 2)
        .map(|n| other(100 * n, 100 * n))
        .collect();
    append(&mut buffer, &others);
    assert_eq!(buffer.head.nframes, PLACES);
    let last = 100 * (PLACES as i64 - 3);
    let said = buffer.seek(1, last);
    assert_eq!(said, found(PLACES as u32, 1, PLACES - 2));
    assert_eq!(buffer.walked(1, RANGES), Ok(PLACES - 2));
    let start = said.expect("a start");
    assert_eq!(to_decode(&buffer, start).len(), PLACES - 2);
}

#[test]
fn times_at_the_ends_of_the_limits() {
    let most = 1_000_000_000_000;
    let mut buffer = fresh();
    for (time, offset) in [(most, 1_000_000.0), (-most, -1_000_000.0)] {
        assert_eq!(buffer.set_offset(offset), Ok(()));
        let lines = buffer.append(point(most, time), &mut [Fate::default(); FATES]);
        assert_eq!(lines, Ok(0));
    }
    assert_eq!(buffer.seek(1, 2 * most), found(1, 1, 1));
    assert_eq!(buffer.seek(1, 2 * most + 99), found(1, 1, 1));
    assert_eq!(buffer.seek(1, 0), found(2, 2, 1));
    for instant in [
        i64::MIN,
        i64::MIN + 1,
        -1,
        100,
        2 * most - 1,
        2 * most + 100,
    ] {
        assert_eq!(buffer.seek(1, instant), NO_START, "{instant}");
    }
    for instant in [i64::MAX - 1, i64::MAX] {
        assert_eq!(buffer.seek(1, instant), NO_START, "{instant}");
    }
    // The greatest end that a saved buffer may have.
    buffer.times[1][0] = 4 * most - 100;
    assert_eq!(buffer.seek(1, 4 * most - 1), found(1, 1, 1));
    for instant in [4 * most, i64::MAX] {
        assert_eq!(buffer.seek(1, instant), NO_START, "{instant}");
    }
    buffer.times[1][0] += 1;
    assert_eq!(buffer.seek(1, 0), Err(Refusal::IllFormed));
}

#[test]
fn no_frame_covers_the_instant() {
    let mut buffer = fresh();
    for instant in [i64::MIN, -1, 0, 1, i64::MAX] {
        assert_eq!(buffer.seek(1, instant), NO_START, "{instant}");
    }
    append(&mut buffer, &[point(0, 0)]);
    assert_eq!(buffer.seek(1, 0), found(1, 1, 1));
    assert_eq!(buffer.seek(2, 0), NO_START);
    assert_eq!(
        buffer.remove(0.0, 1.0, &mut [Fate::default(); FATES]),
        Ok(1)
    );
    assert_eq!(buffer.seek(1, 0), NO_START);
}

/// A buffer as it would be loaded.
fn loaded(buffer: &Buffer) -> Box<Buffer> {
    let bytes: [u8; SIZE] = *buffer.as_bytes();
    Buffer::from_bytes(&bytes)
}

#[test]
fn a_saved_buffer_without_a_random_access_point() {
    let mut saved = holding(&[point(0, 0), other(100, 100), point(200, 200)]);
    assert_eq!(loaded(&saved).seek(1, 100), found(2, 1, 2));
    saved.tags[0][1] = 0;
    let buffer = loaded(&saved);
    assert_eq!(buffer.seek(1, 0), NO_START, "none at all before");
    assert_eq!(buffer.seek(1, 100), NO_START, "the next stands behind");
    assert_eq!(buffer.seek(1, 200), found(3, 3, 1));
    // It is held all the same: 15 is no word on the ranges.
    let mut ranges = [galumper::Range::default(); RANGES];
    assert_eq!(buffer.track_ranges(1, &mut ranges), Ok(1));
    assert!(galumper::held(&ranges[..1], 100));
}

#[test]
fn a_random_access_point_of_another_group_or_track_does_not_lead() {
    let mut saved = two_groups();
    saved.tags[0][1] = 0;
    assert_eq!(loaded(&saved).seek(1, 550), NO_START, "3 is of group 1");
    assert_eq!(loaded(&saved).seek(1, 250), found(4, 3, 2));
    // Of one group it does.
    for place in 0..5 {
        saved.tags[place][4] = 0;
    }
    assert_eq!(loaded(&saved).seek(1, 550), found(2, 3, 2));

    let on_two = |frame| Offered { track: 2, ..frame };
    let frames = [point(0, 0), on_two(point(0, 0)), on_two(other(100, 100))];
    let mut saved = holding(&frames);
    saved.tags[1][1] = 0;
    assert_eq!(loaded(&saved).seek(2, 100), NO_START, "1 is of track 1");
    assert_eq!(loaded(&saved).seek(1, 0), found(1, 1, 1));
}

#[test]
fn a_target_that_nothing_leads_to_is_not_exchanged_for_another() {
    let mut saved = two_groups();
    // Frame 2 and frame 5 are shown at 350; 2 is presented later, and nothing leads to it.
    saved.times[2][0] = 310;
    assert_eq!(loaded(&saved).seek(1, 350), found(2, 1, 2));
    saved.tags[0][1] = 0;
    assert_eq!(loaded(&saved).seek(1, 350), NO_START);
    assert_eq!(loaded(&saved).seek(1, 309), found(5, 5, 1));
}

#[test]
fn refused_1_then_3_then_15() {
    let mut buffer = two_groups();
    for instant in [i64::MIN, -1, 0, 550, i64::MAX] {
        for track in [0, 3, TRACKS as u32, 257, u32::MAX] {
            let said = buffer.seek(track, instant);
            assert_eq!(said, Err(Refusal::NoTrack), "{track}, {instant}");
        }
    }
    assert_eq!(buffer.seek(1, -1), NO_START);
    buffer.head.mode = 2;
    for track in [0, 1, 2, 3, u32::MAX] {
        for instant in [i64::MIN, -1, 0, 550, i64::MAX] {
            let said = buffer.seek(track, instant);
            assert_eq!(said, Err(Refusal::IllFormed), "{track}, {instant}");
        }
    }
}

#[test]
fn any_mode_and_setting_and_nothing_changes() {
    let mut buffer = two_groups();
    assert_eq!(buffer.set_mode(Mode::Sequence), Ok(()));
    assert_eq!(buffer.set_offset(-5.0), Ok(()));
    assert_eq!(buffer.set_window_start(400.0), Ok(()));
    let before = buffer.clone();
    assert_eq!(buffer.seek(1, 550), found(2, 1, 2));
    assert_eq!(buffer.seek(1, 400), NO_START);
    assert_eq!(buffer, before);
}
