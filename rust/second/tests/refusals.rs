//! The order in which refusals are given: of several that apply, the first of the paper's list.

use second::{
    abort, append, common_ranges, create, remove, set_offset, set_window_end, set_window_start,
    track_ranges, Maybe, Mode, Offered, Refusal, State, FRAME_PLACES, OFFERED_LIMIT, RESULT_LIMIT,
};

const GOOD: Offered = Offered {
    track: 1,
    pts: 0,
    dts: 0,
    duration: 100,
    flagged: true,
};

fn fresh() -> State {
    create(&[0]).expect("one track")
}

/// A full store in the last group, that a frame decoded at 0 breaks off from.
fn full_in_the_last_group() -> State {
    let mut state = fresh();
    for place in 1..=FRAME_PLACES as i64 {
        let offered = Offered {
            pts: 100 * place,
            dts: 100 * place,
            ..GOOD
        };
        let appended = append(&mut state, &offered, &mut [[0; 2]; FRAME_PLACES]);
        assert_eq!(appended, Ok(0));
    }
    state.head.group = u32::MAX;
    state
}

#[test]
fn append_gives_1_2_3_4_9_7_9_8() {
    let mut state = full_in_the_last_group();
    state.head.last_number = u32::MAX;
    state.head.settings.offset.micros = RESULT_LIMIT;
    state.head.settings.offset.double = 4_000_000.0;
    state.head.track_count = 5;
    let mut offered = Offered {
        track: 2,
        pts: OFFERED_LIMIT + 1,
        ..GOOD
    };
    let mut fates = vec![[0; 2]; FRAME_PLACES];
    let mut say = |state: &State, offered: &Offered, lines: usize| {
        let mut after = *state;
        let refusal = append(&mut after, offered, &mut fates[..lines]).expect_err("a refusal");
        assert_eq!(after, *state);
        refusal.number()
    };
    assert_eq!(say(&state, &offered, 1023), 1);
    state.head.track_count = 1;
    assert_eq!(say(&state, &offered, 1023), 2);
    assert_eq!(say(&state, &offered, 1024), 3);
    offered.track = 1;
    assert_eq!(say(&state, &offered, 1024), 4);
    offered.pts = OFFERED_LIMIT;
    assert_eq!(say(&state, &offered, 1024), 9);
    state.head.last_number -= 1;
    assert_eq!(say(&state, &offered, 1024), 7);
    state.head.settings = fresh().head.settings;
    (offered.pts, offered.dts) = (0, 0);
    assert_eq!(say(&state, &offered, 1024), 9);
    state.head.group -= 1;
    assert_eq!(say(&state, &offered, 1024), 8);
}

#[test]
fn the_group_is_asked_for_after_the_second_pass() {
    // The first pass is within the limits, and breaks; the second begins at the group end, and the
    // frame is decoded too far before it.
    let mut state = full_in_the_last_group();
    state.head.mode = Mode::Sequence;
    state.head.group_end = -RESULT_LIMIT;
    let before = state;
    let mut say = |offered: &Offered| {
        let refusal = append(&mut state, offered, &mut [[0; 2]; FRAME_PLACES]);
        refusal.expect_err("a refusal").number()
    };
    let early = Offered { dts: -1, ..GOOD };
    assert_eq!(say(&early), 7);
    assert_eq!(say(&Offered { dts: 1, ..GOOD }), 9);
    assert_eq!(state, before);
}

#[test]
fn a_frame_that_would_be_dropped_needs_its_group() {
    let mut state = full_in_the_last_group();
    let before = state;
    let unflagged = Offered {
        flagged: false,
        ..GOOD
    };
    let appended = append(&mut state, &unflagged, &mut [[0; 2]; FRAME_PLACES]);
    assert_eq!(appended, Err(Refusal::NumbersGone));
    assert_eq!(state, before);
}

#[test]
fn remove_gives_1_2_5_6_9() {
    let mut state = full_in_the_last_group();
    let say = |state: &mut State, start, end, lines| {
        let before = *state;
        let mut fates = vec![[7; 2]; lines];
        let refusal = remove(state, start, end, &mut fates);
        assert_eq!((*state, fates), (before, vec![[7; 2]; lines]));
        refusal.expect_err("a refusal").number()
    };
    state.head.track_count = 5;
    assert_eq!(say(&mut state, -1.0, f64::NAN, 1023), 1);
    state.head.track_count = 1;
    assert_eq!(say(&mut state, -1.0, f64::NAN, 1023), 2);
    assert_eq!(say(&mut state, -1.0, f64::NAN, 1024), 5);
    assert_eq!(say(&mut state, f64::INFINITY, f64::INFINITY, 1024), 5);
    assert_eq!(say(&mut state, -1.0, f64::INFINITY, 1024), 6);
    assert_eq!(say(&mut state, 0.0001, 0.0001004, 1024), 6);
    assert_eq!(say(&mut state, 0.0, f64::INFINITY, 1024), 9);
    // What leaves the last decode time is done in the last group too.
    let mut fates = vec![[0; 2]; FRAME_PLACES];
    assert_eq!(remove(&mut state, 0.0001, 0.0002, &mut fates), Ok(1));
    assert_eq!(state.head.group, u32::MAX);
}

#[test]
fn abort_gives_1_9() {
    let mut state = fresh();
    state.head.group = u32::MAX;
    let before = state;
    assert_eq!(abort(&mut state), Err(Refusal::NumbersGone));
    assert_eq!(state, before);
    state.head.group_start = Maybe {
        set: false,
        value: 1,
    };
    assert_eq!(abort(&mut state), Err(Refusal::IllFormed));
}

#[test]
fn setters_give_5_6() {
    let mut state = fresh();
    set_window_end(&mut state, 1.0).expect("a window end");
    set_window_start(&mut state, 0.5).expect("a window start");
    assert_eq!(set_offset(&mut state, f64::INFINITY), Err(Refusal::Seconds));
    for (start, refusal) in [
        (f64::INFINITY, Refusal::Seconds),
        (-1_000_001.0, Refusal::Seconds),
        (-1.0, Refusal::Order),
        (1.0, Refusal::Order),
    ] {
        assert_eq!(set_window_start(&mut state, start), Err(refusal), "{start}");
    }
    for (end, refusal) in [
        (f64::NEG_INFINITY, Refusal::Seconds),
        (0.5, Refusal::Order),
        (-1.0, Refusal::Order),
    ] {
        assert_eq!(set_window_end(&mut state, end), Err(refusal), "{end}");
    }
    assert_eq!(set_window_start(&mut state, -0.0), Ok(()));
    assert!(state.head.settings.window_start.double.is_sign_negative());
    assert_eq!(set_window_end(&mut state, f64::INFINITY), Ok(()));
}

#[test]
fn halves_are_ordered_where_they_go() {
    // 7812.5 is 7813.
    let (below, half, above) = (0.007812, 0.0078125, 0.007813);
    let mut fates = vec![[0; 2]; FRAME_PLACES];
    let mut state = fresh();
    let removed = remove(&mut state, half, above, &mut fates);
    assert_eq!(removed, Err(Refusal::Order));
    assert_eq!(remove(&mut state, below, half, &mut fates), Ok(0));
    set_window_end(&mut state, above).expect("a window end");
    assert_eq!(set_window_start(&mut state, half), Err(Refusal::Order));
    set_window_start(&mut state, below).expect("a window start");
    assert_eq!(set_window_end(&mut state, half), Ok(()));
}

#[test]
fn reports_give_3_10() {
    let mut state = fresh();
    let mut fates = vec![[0; 2]; FRAME_PLACES];
    assert_eq!(track_ranges(&state, 1, &mut []), Ok(0));
    append(&mut state, &GOOD, &mut fates).expect("accepted");
    for track in [0, 2, u32::MAX] {
        let refusal = Err(Refusal::UnknownTrack);
        assert_eq!(track_ranges(&state, track, &mut []), refusal);
    }
    assert_eq!(track_ranges(&state, 1, &mut []), Err(Refusal::ShortList));
    assert_eq!(common_ranges(&state, &mut []), Err(Refusal::ShortList));
    assert_eq!(common_ranges(&state, &mut [[0; 2]]), Ok(1));
}

#[test]
fn creation_gives_11() {
    for kinds in [&[][..], &[0; 5], &[2], &[0, u32::MAX]] {
        assert_eq!(create(kinds), Err(Refusal::Creation), "{kinds:?}");
    }
}
