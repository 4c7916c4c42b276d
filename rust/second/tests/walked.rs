//! Document 02, No. 3: how many frames the report of a track takes, by worked cases.

use second::{
    append, create, track_ranges, walked, Offered, Refusal, State, FRAME_PLACES, TRACK_PLACES,
};

/// A frame by its presentation time, decode time and duration.
type Times = (i64, i64, u32);

/// A buffer whose tracks hold these frames, all of them kept.
fn holding(tracks: &[&[Times]]) -> State {
    let mut state = create(&vec![0; tracks.len()]).expect("some tracks");
    for (track, frames) in (1..).zip(tracks) {
        for &(pts, dts, duration) in *frames {
            let offered = Offered {
                track,
                pts,
                dts,
                duration,
                flagged: true,
            };
            let appended = append(&mut state, &offered, &mut [[0; 2]; FRAME_PLACES]);
            assert_eq!(appended, Ok(0), "{offered:?}");
        }
    }
    state
}

/// How many frames of track 1 are taken with 0 places, with 1, and so on.
fn taken<const N: usize>(state: &State) -> [usize; N] {
    std::array::from_fn(|places| walked(state, 1, places).expect("a count"))
}

#[test]
fn shown_as_they_are_decoded() {
    let state = holding(&[&[(0, 0, 100), (100, 100, 99), (200, 200, 100)]]);
    assert_eq!(taken(&state), [1, 3, 3, 3]);
    let joined = holding(&[&[(0, 0, 100), (100, 100, 100), (200, 200, 100)]]);
    assert_eq!(taken(&joined), [1, 3, 3]);
}

#[test]
fn shown_in_another_order_than_they_are_decoded() {
    // Shown at 0, 100, 300, 500, 600, 700: the ranges [0,200) [300,400) [500,800).
    let state = holding(&[&[
        (0, 0, 100),
        (300, 100, 100),
        (100, 200, 100),
        (700, 300, 100),
        (500, 400, 100),
        (600, 500, 100),
    ]]);
    assert_eq!(taken(&state), [1, 3, 4, 6, 6]);
}

#[test]
fn of_equal_times_one_is_the_first() {
    let state = holding(&[&[
        (0, 0, 100),
        (0, 0, 100),
        (200, 100, 50),
        (200, 100, 100),
        (200, 100, 1),
        (400, 200, 100),
        (400, 200, 100),
    ]]);
    assert_eq!(taken(&state), [1, 3, 6, 7, 7]);
}

#[test]
fn a_long_frame_covers_those_after_it() {
    // The range ends with the first frame, and not with the last that is in it: 1000 touches it, and
    // 1011 is a microsecond beyond.
    let state = holding(&[&[
        (0, 0, 1000),
        (100, 1, 50),
        (1000, 2, 10),
        (999, 3, 1),
        (1011, 4, 1),
        (1012, 5, 1),
    ]]);
    assert_eq!(taken(&state), [1, 5, 6, 6]);
}

#[test]
fn only_the_frames_of_its_track() {
    let gaps: &[Times] = &[(0, 0, 100), (200, 100, 100), (400, 200, 100)];
    let state = holding(&[&[(1000, 0, 100)], gaps, &[]]);
    for (track, wanted) in [(1, [1, 1, 1, 1]), (2, [1, 2, 3, 3]), (3, [0; 4])] {
        for (places, wanted) in wanted.into_iter().enumerate() {
            assert_eq!(walked(&state, track, places), Ok(wanted), "track {track}");
        }
    }
}

#[test]
fn a_track_without_frames() {
    assert_eq!(taken(&holding(&[&[]])), [0; 3]);
}

#[test]
fn as_many_ranges_as_there_can_be() {
    let frames: Vec<Times> = (0..FRAME_PLACES as i64)
        .map(|place| (101 * place, 101 * place, 100))
        .collect();
    let state = holding(&[&frames]);
    for (places, wanted) in [
        (0, 1),
        (1, 2),
        (FRAME_PLACES - 2, FRAME_PLACES - 1),
        (FRAME_PLACES - 1, FRAME_PLACES),
        (FRAME_PLACES, FRAME_PLACES),
        (usize::MAX, FRAME_PLACES),
    ] {
        assert_eq!(walked(&state, 1, places), Ok(wanted), "{places} places");
    }
    // With a place too few it takes them all, and the report is refused.
    let mut list = vec![[0; 2]; FRAME_PLACES];
    let short = track_ranges(&state, 1, &mut list[1..]);
    assert_eq!(short, Err(Refusal::ShortList));
    assert_eq!(track_ranges(&state, 1, &mut list), Ok(FRAME_PLACES));
}

#[test]
fn refused_1_then_3_and_never_10() {
    let mut state = holding(&[&[(0, 0, 100)], &[]]);
    for track in [0, 3, TRACK_PLACES as u32, u32::MAX] {
        for places in [0, 1, usize::MAX] {
            let refusal = Err(Refusal::UnknownTrack);
            assert_eq!(walked(&state, track, places), refusal, "track {track}");
        }
    }
    state.head.last_number = 0;
    for track in 0..=3 {
        for places in [0, 1, usize::MAX] {
            assert_eq!(walked(&state, track, places), Err(Refusal::IllFormed));
        }
    }
}
