//! Each clause of "Well-formed state", broken alone.

use second::{
    abort, append, append_batch, common_ranges, create, quotient, read_settings, remove, seek,
    set_mode, set_offset, set_window_end, set_window_start, track_ranges, walked, well_formed,
    Fault, Maybe, Mode, Offered, Refusal, Seconds, State, BATCH_LINES, FRAME_PLACES,
    LONGEST_DURATION, OFFERED_LIMIT, RESULT_LIMIT,
};

const BEYOND: i64 = RESULT_LIMIT + 1;

/// Two tracks with two frames each, and a bounded window.
fn healthy() -> State {
    let mut state = create(&[0, 1]).expect("two tracks");
    set_window_end(&mut state, 1.0).expect("a window end");
    let mut fates = [[0; 2]; FRAME_PLACES];
    for (track, time) in [(1, 0), (2, 0), (1, 100), (2, 100)] {
        let offered = Offered {
            track,
            pts: time,
            dts: time,
            duration: 100,
            flagged: time == 0,
        };
        assert_eq!(append(&mut state, &offered, &mut fates), Ok(0));
    }
    state
}

/// A way to damage a state.
type Damage = fn(&mut State);

#[rustfmt::skip]
const DAMAGES: &[(Fault, Damage)] = &[
    (Fault::TrackCount, |s| s.head.track_count = 0),
    (Fault::TrackCount, |s| s.head.track_count = 5),
    (Fault::Kind, |s| s.head.tracks[1].kind = 2),
    (Fault::PartlySet, |s| s.head.tracks[0].last_decode = Maybe::UNSET),
    (Fault::PartlySet, |s| s.head.tracks[0].last_duration = Maybe::UNSET),
    (Fault::PartlySet, |s| s.head.tracks[0].highest_end = Maybe::UNSET),
    (Fault::TrackUnset, |s| s.head.tracks[0].last_decode.set = false),
    (Fault::LastDecode, |s| s.head.tracks[0].last_decode = Maybe::of(BEYOND)),
    (Fault::LastDecode, |s| s.head.tracks[0].last_decode = Maybe::of(-BEYOND)),
    (Fault::LastDuration, |s| s.head.tracks[0].last_duration = Maybe::of(0)),
    (Fault::LastDuration, |s| s.head.tracks[0].last_duration = Maybe::of(10_000_001)),
    (Fault::HighestEnd, |s| s.head.tracks[0].highest_end = Maybe::of(BEYOND)),
    (Fault::TrackPlace, |s| s.head.tracks[2].need_random_access = true),
    (Fault::TrackPlace, |s| s.head.tracks[3].highest_end.value = 1),
    (Fault::TrackPlace, |s| s.head.track_count = 1),
    (Fault::GroupStartUnset, |s| s.head.group_start.value = 7),
    (Fault::GroupStart, |s| s.head.group_start = Maybe::of(BEYOND)),
    (Fault::GroupEnd, |s| s.head.group_end = -BEYOND),
    (Fault::Offset, |s| { s.head.settings.offset.micros = BEYOND; s.head.settings.offset.double = quotient(BEYOND) }),
    (Fault::OffsetDouble, |s| s.head.settings.offset.micros = 1),
    (Fault::OffsetDouble, |s| s.head.settings.offset.double = f64::NAN),
    (Fault::WindowStart, |s| s.head.settings.window_start.micros = -1),
    (Fault::WindowStartDouble, |s| s.head.settings.window_start.double = 6e-7),
    (Fault::WindowEndUnset, |s| s.head.settings.window_end.bounded = false),
    (Fault::WindowEndUnset, |s| { s.head.settings.window_end = Default::default(); s.head.settings.window_end.time.double = -0.0 }),
    (Fault::WindowEndDouble, |s| s.head.settings.window_end.time.double = f64::INFINITY),
    (Fault::WindowEndDouble, |s| s.head.settings.window_end.time.micros = OFFERED_LIMIT),
    (Fault::WindowOrder, |s| s.head.settings.window_start = s.head.settings.window_end.time),
    (Fault::FrameCount, |s| s.frame_count = 1025),
    (Fault::FrameTrack, |s| s.frames[0].track = 0),
    (Fault::FrameTrack, |s| s.frames[3].track = 3),
    (Fault::FrameTrack, |s| s.frame_count = 5),
    (Fault::FrameNumber, |s| s.frames[0].number = 0),
    (Fault::FrameNumber, |s| s.head.last_number = 3),
    (Fault::FrameGroup, |s| s.frames[3].group = 1),
    (Fault::FrameGroup, |s| { s.head.group = u32::MAX - 1; s.frames[0].group = u32::MAX }),
    (Fault::FramePresentation, |s| s.frames[1].pts = -1),
    (Fault::FramePresentation, |s| s.frames[1].pts = i64::MAX),
    (Fault::FrameDecode, |s| s.frames[0].dts = -BEYOND),
    (Fault::FrameDuration, |s| s.frames[1].duration = 0),
    (Fault::FrameDuration, |s| s.frames[1].duration = LONGEST_DURATION + 1),
    (Fault::FrameEnd, |s| s.frames[1].pts = RESULT_LIMIT),
    (Fault::FrameOrder, |s| s.frames.swap(0, 1)),
    (Fault::FrameOrder, |s| s.frames.swap(1, 2)),
    (Fault::FrameOrder, |s| s.frames[1] = s.frames[0]),
    (Fault::FrameTwice, |s| s.frames[1].number = 1),
    (Fault::FrameTwice, |s| s.frames[2].number = 3),
    (Fault::FramePlace, |s| s.frame_count = 3),
    (Fault::FramePlace, |s| s.frames[1023].flagged = true),
    (Fault::FramePlace, |s| { s.head.group = 1; s.frames[4].group = 1 }),
];

/// What every call says to a state, each with a copy.
fn refusals(state: &State) -> Vec<Option<Refusal>> {
    let mut fates = [[0; 2]; BATCH_LINES];
    let mut ranges = [[0; 2]; FRAME_PLACES];
    let offered = Offered {
        track: 1,
        pts: 200,
        dts: 200,
        duration: 100,
        flagged: true,
    };
    let mut states = [*state; 8];
    let [a, b, c, d, e, f, g, h] = &mut states;
    let said = vec![
        append(a, &offered, &mut fates).err(),
        remove(b, 0.0, 1.0, &mut fates).err(),
        abort(c).err(),
        set_mode(d, Mode::Sequence).err(),
        set_offset(e, 0.0).err(),
        set_window_start(f, 0.0).err(),
        set_window_end(g, 2.0).err(),
        append_batch(h, &[], &mut fates).err(),
        read_settings(state).err(),
        track_ranges(state, 1, &mut ranges).err(),
        common_ranges(state, &mut ranges).err(),
        walked(state, 1, 0).err(),
        seek(state, 1, 0).err(),
    ];
    if said.iter().all(Option::is_some) {
        assert!(states.iter().all(|after| after == state), "a state moved");
        assert_eq!(fates, [[0; 2]; BATCH_LINES], "fate list touched");
        assert_eq!(ranges, [[0; 2]; FRAME_PLACES], "range list touched");
    }
    said
}

#[test]
fn the_healthy_state_is_well_formed() {
    assert_eq!(well_formed(&healthy()), Ok(()));
    assert!(refusals(&healthy()).iter().all(Option::is_none));
}

#[test]
fn each_damage_is_found_and_refused_by_every_call() {
    for (place, (fault, damage)) in DAMAGES.iter().enumerate() {
        let mut state = healthy();
        damage(&mut state);
        assert_eq!(well_formed(&state), Err(*fault), "damage {place}");
        for refusal in refusals(&state) {
            assert_eq!(refusal, Some(Refusal::IllFormed), "damage {place}");
        }
    }
}

/// Keeps a time as a setting of the state.
type Keep = fn(&mut State, Seconds);

/// The settings, each with its fault where the double does not convert.
#[rustfmt::skip]
const SETTINGS: [(Fault, Keep); 3] = [
    (Fault::OffsetDouble, |s, time| s.head.settings.offset = time),
    (Fault::WindowStartDouble, |s, time| s.head.settings.window_start = time),
    (Fault::WindowEndDouble, |s, time| s.head.settings.window_end.time = time),
];

/// Document 02, No. 7: a double, the microseconds that it stands for, and those that it stood for by
/// document 01.
const ABOVE_ZERO: (f64, i64, i64) = (0.0078125, 7813, 7812);
const BELOW_ZERO: (f64, i64, i64) = (-0.0234375, -23437, -23438);

fn keeping(keep: Keep, double: f64, micros: i64) -> State {
    let mut state = healthy();
    keep(&mut state, Seconds { double, micros });
    state
}

#[test]
fn a_half_saved_by_document_01_is_refused_by_every_call() {
    let [offset, ..] = SETTINGS;
    let above = SETTINGS.map(|setting| (setting, ABOVE_ZERO));
    for ((fault, keep), (double, now, before)) in above.into_iter().chain([(offset, BELOW_ZERO)]) {
        let state = keeping(keep, double, now);
        assert!(refusals(&state).iter().all(Option::is_none), "{fault:?}");
        let saved = keeping(keep, double, before);
        assert_eq!(well_formed(&saved), Err(fault));
        for refusal in refusals(&saved) {
            assert_eq!(refusal, Some(Refusal::IllFormed), "{fault:?}");
        }
    }
}

#[test]
fn a_quotient_beside_a_half_is_taken_as_the_offset() {
    let [(_, keep), ..] = SETTINGS;
    for micros in [7812, 7813, -23437, -23438] {
        let state = keeping(keep, quotient(micros), micros);
        assert_eq!(well_formed(&state), Ok(()), "{micros}");
    }
}

#[test]
fn halves_are_set_again_on_a_fresh_buffer() {
    let mut state = create(&[0]).expect("one track");
    set_offset(&mut state, -0.0234375).expect("an offset");
    set_window_start(&mut state, 0.0078125).expect("a window start");
    set_window_end(&mut state, 0.0234375).expect("a window end");
    let settings = state.head.settings;
    let kept = [
        settings.offset,
        settings.window_start,
        settings.window_end.time,
    ];
    assert_eq!(kept.map(|time| time.micros), [-23437, 7813, 23438]);
    assert_eq!(well_formed(&state), Ok(()));
}

#[test]
fn every_clause_is_damaged() {
    for fault in Fault::ALL {
        assert!(DAMAGES.iter().any(|(of, _)| of == fault), "{fault:?}");
    }
}

#[test]
#[rustfmt::skip]
fn what_may_look_damaged_and_is_not() {
    let harmless: &[Damage] = &[
        |s| s.head.group_start = Maybe::of(-RESULT_LIMIT),
        |s| s.head.tracks[0].need_random_access = true,
        |s| s.head.tracks[0] = Default::default(),
        |s| s.head.settings.offset.double = -0.0,
        |s| { s.head.settings.offset.micros = RESULT_LIMIT; s.head.settings.offset.double = 4_000_000.0 },
        |s| s.head.settings.window_start.double = -4e-7,
        |s| s.head.last_number = u32::MAX,
        |s| s.frames[1].number = 4_000,
        |s| s.frames[0].dts = -RESULT_LIMIT,
        |s| s.frames[1].pts = RESULT_LIMIT - 100,
        |s| s.frames[1].flagged = true,
        |s| s.head.group = u32::MAX,
        |s| { s.head.group = 7; s.frames[0].group = 7; s.frames[1].group = 3 },
    ];
    for (place, change) in harmless.iter().enumerate() {
        let mut state = healthy();
        state.head.last_number = 4_000;
        change(&mut state);
        assert_eq!(well_formed(&state), Ok(()), "change {place}");
    }
}
