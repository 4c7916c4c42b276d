//! Document 02, No. 6: where to start decoding, by worked cases and by the request's words.

use second::{
    abort, append, create, seek, well_formed, Frame, Offered, Refusal, Start, State, FRAME_PLACES,
    RESULT_LIMIT,
};

/// A buffer whose tracks hold these frames, which may be ones that no call leaves.
fn holding(tracks: usize, frames: &[Frame]) -> State {
    let mut state = create(&vec![0; tracks]).expect("some tracks");
    state.frame_count = frames.len();
    state.frames[..frames.len()].copy_from_slice(frames);
    state.frames[..frames.len()].sort_by_key(|frame| (frame.track, frame.dts, frame.number));
    state.head.last_number = frames.iter().map(|frame| frame.number).max().unwrap_or(0);
    state.head.group = frames.iter().map(|frame| frame.group).max().unwrap_or(0);
    assert_eq!(well_formed(&state), Ok(()));
    state
}

/// A flagged frame of group 0 on track 1, 100 microseconds long.
fn r(number: u32, pts: i64, dts: i64) -> Frame {
    Frame {
        track: 1,
        number,
        pts,
        dts,
        duration: 100,
        flagged: true,
        group: 0,
    }
}

/// The same without the flag.
fn p(number: u32, pts: i64, dts: i64) -> Frame {
    Frame {
        flagged: false,
        ..r(number, pts, dts)
    }
}

/// What track 1 answers: target, flagged frame and count.
fn sought(state: &State, instant: i64) -> Result<(u32, u32, usize), Refusal> {
    let start = seek(state, 1, instant)?;
    Ok((start.target, start.flagged, start.count))
}

const NONE: Result<(u32, u32, usize), Refusal> = Err(Refusal::NoStart);

#[test]
fn from_a_frame_s_first_microsecond_to_its_last() {
    let state = holding(
        1,
        &[
            r(1, 0, 0),
            p(2, 100, 100),
            p(3, 200, 200),
            r(4, 300, 300),
            p(5, 400, 400),
        ],
    );
    for (start, wanted) in [
        (0, (1, 1, 1)),
        (100, (2, 1, 2)),
        (200, (3, 1, 3)),
        (300, (4, 4, 1)),
        (400, (5, 4, 2)),
    ] {
        for instant in [start, start + 1, start + 99] {
            assert_eq!(sought(&state, instant), Ok(wanted), "at {instant}");
        }
    }
    assert_eq!(sought(&state, 500), NONE);
}

#[test]
fn where_no_frame_is_shown() {
    let state = holding(2, &[r(1, 100, 0), p(2, 201, 100)]);
    for instant in [i64::MIN, -1, 0, 99, 200, 301, RESULT_LIMIT, i64::MAX] {
        assert_eq!(sought(&state, instant), NONE, "at {instant}");
        assert_eq!(seek(&state, 2, instant), Err(Refusal::NoStart));
    }
    assert_eq!(sought(&state, 199), Ok((1, 1, 1)));
    assert_eq!(sought(&state, 201), Ok((2, 1, 2)));
}

#[test]
fn at_the_limits_of_time() {
    let far = RESULT_LIMIT - 100;
    let state = holding(1, &[r(1, 0, -RESULT_LIMIT), p(2, far, RESULT_LIMIT)]);
    assert_eq!(sought(&state, RESULT_LIMIT - 1), Ok((2, 1, 2)));
    assert_eq!(sought(&state, RESULT_LIMIT), NONE);
    assert_eq!(sought(&state, 0), Ok((1, 1, 1)));
}

#[test]
fn of_several_the_one_that_is_presented_last() {
    let long = Frame {
        duration: 1_000,
        ..r(1, 0, 0)
    };
    // Store order 1, 2, 3, 4; presented in the order 1, 4, 3, 2.
    let state = holding(1, &[long, p(2, 160, 10), p(3, 130, 20), p(4, 100, 30)]);
    for (instant, wanted) in [
        (99, (1, 1, 1)),
        (100, (4, 1, 4)),
        (130, (3, 1, 3)),
        (160, (2, 1, 2)),
        (199, (2, 1, 2)),
        (259, (2, 1, 2)),
        (260, (1, 1, 1)),
        (999, (1, 1, 1)),
    ] {
        assert_eq!(sought(&state, instant), Ok(wanted), "at {instant}");
    }
}

#[test]
fn of_one_time_the_one_of_the_greatest_number() {
    let numbers = [
        (1, 2, 3),
        (1, 3, 2),
        (2, 1, 3),
        (3, 1, 2),
        (2, 3, 1),
        (3, 2, 1),
    ];
    for (one, two, three) in numbers {
        let state = holding(1, &[r(one, 0, 0), r(two, 0, 10), r(three, 0, 20)]);
        assert_eq!(sought(&state, 50), Ok((3, 3, 1)), "{one} {two} {three}");
    }
}

#[test]
fn what_is_decoded_before_the_target_and_shown_after_it() {
    // I P B B, twice: decoded 1 to 8, shown 1 3 4 2 5 7 8 6.
    let shown = [0, 3, 1, 2, 4, 7, 5, 6];
    let frames: Vec<Frame> = (1..)
        .zip(shown)
        .map(|(number, place)| match number {
            1 => r(number, 100 * place, 0),
            _ => p(number, 100 * place, 100 * i64::from(number)),
        })
        .collect();
    let state = holding(1, &frames);
    for (number, place) in (1..).zip(shown) {
        let wanted = (number, 1, number as usize);
        assert_eq!(sought(&state, 100 * place + 50), Ok(wanted));
    }
}

#[test]
fn a_flagged_frame_after_the_target_leads_nowhere() {
    let state = holding(
        1,
        &[r(1, 0, 0), p(2, 100, 50), r(3, 200, 50), r(4, 300, 60)],
    );
    assert_eq!(sought(&state, 150), Ok((2, 1, 2)));
    assert_eq!(sought(&state, 250), Ok((3, 3, 1)));
}

#[test]
fn of_equal_decode_times_the_number_says_which_is_before() {
    let state = holding(1, &[r(1, 0, 0), p(2, 100, 0), r(3, 200, 0), p(4, 300, 0)]);
    for (instant, wanted) in [(100, (2, 1, 2)), (200, (3, 3, 1)), (300, (4, 3, 2))] {
        assert_eq!(sought(&state, instant), Ok(wanted), "at {instant}");
    }
}

/// Appends a frame of 100 microseconds to track 1, which takes none out.
fn appended(state: &mut State, pts: i64, dts: i64, flagged: bool) {
    let offered = Offered {
        track: 1,
        pts,
        dts,
        duration: 100,
        flagged,
    };
    let lines = append(state, &offered, &mut [[0; 2]; FRAME_PLACES]);
    assert_eq!(lines, Ok(0), "{offered:?}");
}

#[test]
fn groups_among_each_other() {
    // Frames 1 and 2 of group 0; 3, a point, 4 and 5, a point, of group 1. Store order 1, 3, 2, 4, 5.
    let mut state = create(&[0]).expect("a track");
    appended(&mut state, 0, 0, true);
    appended(&mut state, 500, 150, false);
    abort(&mut state).expect("abort");
    appended(&mut state, 100, 50, true);
    appended(&mut state, 200, 200, false);
    appended(&mut state, 300, 250, true);
    for (instant, wanted) in [
        (0, (1, 1, 1)),
        (100, (3, 3, 1)),
        (200, (4, 3, 2)),
        (300, (5, 5, 1)),
        (500, (2, 1, 2)),
    ] {
        assert_eq!(sought(&state, instant), Ok(wanted), "at {instant}");
    }
    assert_eq!(sought(&state, 400), NONE);
}

#[test]
fn the_target_is_of_any_group() {
    let later = |frame| Frame { group: 7, ..frame };
    let state = holding(1, &[r(1, 0, 0), later(r(2, 50, 10)), p(3, 60, 20)]);
    assert_eq!(sought(&state, 49), Ok((1, 1, 1)));
    assert_eq!(sought(&state, 59), Ok((2, 2, 1)));
    assert_eq!(sought(&state, 149), Ok((3, 1, 2)));
}

#[test]
fn only_frames_of_its_track() {
    let on = |track, frame| Frame { track, ..frame };
    let state = holding(
        3,
        &[
            r(1, 0, 0),
            p(3, 100, 100),
            on(2, r(2, 50, 10)),
            on(2, p(4, 100, 90)),
            on(2, r(5, 400, 110)),
        ],
    );
    let start = |target, flagged, count| {
        Ok(Start {
            target,
            flagged,
            count,
        })
    };
    assert_eq!(seek(&state, 1, 100), start(3, 1, 2));
    assert_eq!(seek(&state, 2, 100), start(4, 2, 2));
    assert_eq!(seek(&state, 2, 400), start(5, 5, 1));
    assert_eq!(seek(&state, 1, 400), Err(Refusal::NoStart));
    assert_eq!(seek(&state, 3, 100), Err(Refusal::NoStart));
}

#[test]
fn a_target_that_no_point_leads_to() {
    let later = |frame| Frame { group: 1, ..frame };
    let on = |track, frame| Frame { track, ..frame };
    let handed_in = [
        vec![p(1, 0, 0)],
        vec![p(1, 50, 0), p(2, 0, 10)],
        vec![p(1, 0, 0), r(2, 500, 10)],
        vec![p(1, 0, 0), r(2, 500, 0)],
        vec![later(r(1, 500, 0)), p(2, 0, 10)],
        vec![r(1, 500, 0), later(p(2, 0, 10))],
        vec![on(2, r(1, 0, 0)), p(2, 0, 10)],
    ];
    for frames in handed_in {
        assert_eq!(sought(&holding(2, &frames), 99), NONE, "{frames:?}");
    }
    // The one that is picked has none, though another that covers the instant has.
    let state = holding(1, &[r(1, 0, 0), later(p(2, 50, 10))]);
    assert_eq!(sought(&state, 49), Ok((1, 1, 1)));
    assert_eq!(sought(&state, 50), NONE);
    // One that is flagged needs no other.
    let state = holding(1, &[p(1, 0, 0), later(r(2, 50, 10))]);
    assert_eq!(sought(&state, 50), Ok((2, 2, 1)));
}

#[test]
fn the_whole_of_a_full_store() {
    let last = FRAME_PLACES as u32;
    let mut frames: Vec<Frame> = (1..=last)
        .map(|number| p(number, 100 * i64::from(number), i64::from(number)))
        .collect();
    frames[0].flagged = true;
    let state = holding(1, &frames);
    let instant = 100 * i64::from(last);
    assert_eq!(sought(&state, instant), Ok((last, 1, FRAME_PLACES)));
    for frame in frames.iter_mut().filter(|frame| frame.number % 2 == 0) {
        frame.group = 1;
    }
    let state = holding(1, &frames);
    assert_eq!(sought(&state, instant), NONE);
    let wanted = (last - 1, 1, FRAME_PLACES / 2);
    assert_eq!(sought(&state, instant - 1), Ok(wanted));
}

#[test]
fn refused_1_then_3_then_15() {
    let mut state = holding(2, &[p(1, 0, 0)]);
    for track in [0, 3, 257, u32::MAX] {
        for instant in [i64::MIN, 0, i64::MAX] {
            assert_eq!(seek(&state, track, instant), Err(Refusal::UnknownTrack));
        }
    }
    assert_eq!(Refusal::NoStart.number(), 15);
    assert_eq!(sought(&state, 0), NONE);
    state.head.last_number = 0;
    for track in 0..=3 {
        assert_eq!(seek(&state, track, 0), Err(Refusal::IllFormed));
    }
}

/// Numbers from a linear congruence: enough to vary a test.
struct Numbers(u64);

impl Numbers {
    fn below(&mut self, bound: u64) -> u64 {
        self.0 = self
            .0
            .wrapping_mul(6_364_136_223_846_793_005)
            .wrapping_add(1);
        (self.0 >> 33) % bound
    }
}

/// A state with frames anywhere, not one that appends would have left.
fn scattered(numbers: &mut Numbers) -> State {
    let frames: Vec<Frame> = (1..=numbers.below(30) as u32)
        .map(|number| Frame {
            track: 1 + numbers.below(2) as u32,
            number,
            pts: numbers.below(60) as i64,
            dts: numbers.below(40) as i64,
            duration: 1 + numbers.below(20) as u32,
            flagged: numbers.below(3) == 0,
            group: numbers.below(3) as u32,
        })
        .collect();
    holding(2, &frames)
}

/// The request's words, one after the other.
fn by_the_words(state: &State, track: u32, instant: i64) -> Option<Start> {
    let on_track = |frame: &&Frame| frame.track == track;
    let frames: Vec<&Frame> = state.frames.iter().filter(on_track).collect();
    let covering = frames
        .iter()
        .filter(|f| f.pts <= instant && instant < f.end());
    let target = covering.max_by_key(|frame| (frame.pts, frame.number))?;
    let order = |frame: &Frame| (frame.dts, frame.number);
    let before = frames.iter().filter(|frame| order(frame) <= order(target));
    let group: Vec<&&Frame> = before.filter(|frame| frame.group == target.group).collect();
    let points = group.iter().filter(|frame| frame.flagged);
    let flagged = points.max_by_key(|frame| order(frame))?;
    let decoded = group.iter().filter(|frame| order(frame) >= order(flagged));
    Some(Start {
        target: target.number,
        flagged: flagged.number,
        count: decoded.count(),
    })
}

#[test]
fn as_the_request_says_it() {
    let mut numbers = Numbers(3);
    let (mut asked, mut found) = (0, 0);
    for _ in 0..500 {
        let state = scattered(&mut numbers);
        for track in 1..=2 {
            let stored = state.frames.iter().filter(|frame| frame.track == track);
            let most = stored.count();
            for instant in -1..85 {
                let due = by_the_words(&state, track, instant);
                assert_eq!(seek(&state, track, instant), due.ok_or(Refusal::NoStart));
                assert!(due.is_none_or(|start| (1..=most).contains(&start.count)));
                asked += 1;
                found += usize::from(due.is_some());
            }
        }
    }
    assert!(
        10_000 < found && found < asked - 10_000,
        "{found} of {asked}"
    );
}
