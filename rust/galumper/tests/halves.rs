//! Half a microsecond goes towards plus infinity: what a setting keeps, what a removal takes, and which
//! buffers that were saved before version 0.9.0 are refused now.

use galumper::{
    Buffer, Cause, Fate, Kind, ListedFrame, Mode, Offered, Range, Refusal, Setting, BATCH_FATES,
    FATES, RANGES,
};

/// Doubles half way between two microseconds, with those before version 0.9.0 and those of this one.
const HALVES: [(f64, i64, i64); 8] = [
    (0.0078125, 7_812, 7_813),
    (0.0234375, 23_438, 23_438),
    (0.0390625, 39_062, 39_063),
    (999_999.9765625, 999_999_976_562, 999_999_976_563),
    (-0.0078125, -7_812, -7_812),
    (-0.0234375, -23_438, -23_437),
    (-0.0390625, -39_062, -39_062),
    (-999_999.9921875, -999_999_992_188, -999_999_992_187),
];

const FRAME: Offered = Offered {
    track: 1,
    flagged: true,
    duration: 1,
    pts: 0,
    dts: 0,
};

/// What no call writes.
const FATE: Fate = Fate {
    number: 7,
    cause: Cause(7),
};
const RANGE: Range = Range { start: 7, end: 7 };

/// A buffer of two tracks. The first has frames of a microsecond at these times, each a random access
/// point.
fn holding(times: &[i64]) -> Box<Buffer> {
    let mut buffer = galumper::create(&[Kind::VIDEO, Kind::AUDIO]).expect("two tracks");
    for &time in times {
        let (pts, dts) = (time, time);
        let frame = Offered { pts, dts, ..FRAME };
        assert_eq!(buffer.append(frame, &mut [FATE; FATES]), Ok(0));
    }
    buffer
}

fn setting(seconds: f64, micros: i64) -> Setting {
    let bits = seconds.to_bits();
    Setting { bits, micros }
}

#[test]
fn a_setting_keeps_the_microsecond_above() {
    for (seconds, _, micros) in HALVES {
        let mut buffer = holding(&[]);
        assert_eq!(buffer.set_offset(seconds), Ok(()));
        assert_eq!(buffer.head.settings.offset, setting(seconds, micros));
        if seconds > 0.0 {
            assert_eq!(buffer.set_window_end(seconds), Ok(()));
            assert_eq!(buffer.head.settings.limit, micros);
            assert_eq!(buffer.abort(), Ok(()));
            assert_eq!(buffer.set_window_start(seconds), Ok(()));
            assert_eq!(buffer.head.settings.start, setting(seconds, micros));
        }
    }
}

#[test]
fn a_removal_starts_and_ends_at_the_microsecond_above() {
    for (start, end, number) in [(0.0078125, f64::INFINITY, 2), (0.0, 0.0078125, 1)] {
        let mut fates = [FATE; FATES];
        let removed = holding(&[7_812, 7_813]).remove(start, end, &mut fates);
        assert_eq!(removed, Ok(1), "{start}");
        let cause = Cause::REMOVED;
        assert_eq!(fates[0], Fate { number, cause });
    }
}

#[test]
fn starts_and_ends_are_compared_by_it() {
    let half = 0.0078125;
    for (start, end, said) in [
        (half, 0.007813, Err(Refusal::Order)),
        (half, 0.007814, Ok(())),
        (0.007812, half, Ok(())),
        (0.007813, half, Err(Refusal::Order)),
    ] {
        let mut buffer = holding(&[]);
        let removed = buffer.remove(start, end, &mut [FATE; FATES]);
        assert_eq!(removed.map(drop), said, "{start} {end}");
        assert_eq!(buffer.set_window_end(end), Ok(()));
        assert_eq!(buffer.set_window_start(start), said, "{start} {end}");
        assert_eq!(buffer.abort(), Ok(()));
        assert_eq!(buffer.set_window_start(start), Ok(()));
        assert_eq!(buffer.set_window_end(end), said, "{start} {end}");
    }
}

/// A call, which no number but those of the buffer has refused.
type Call = fn(&mut Buffer, &mut [Fate], &mut [Range]) -> Option<Refusal>;

const ROW: ListedFrame = ListedFrame {
    track: 1,
    pts: 0,
    dts: 0,
    duration: 1,
    flagged: 1,
    size: 0,
};

/// Every call that takes a buffer.
const CALLS: [Call; 14] = [
    |buffer, fates, _| buffer.append(FRAME, fates).err(),
    |buffer, fates, _| buffer.append_batch(&[ROW], fates).err(),
    |buffer, fates, _| buffer.remove(0.0, 1.0, fates).err(),
    |buffer, _, _| buffer.abort().err(),
    |buffer, _, _| buffer.set_mode(Mode::Segments).err(),
    |buffer, _, _| buffer.set_mode(Mode::Sequence).err(),
    |buffer, _, _| buffer.set_offset(0.0).err(),
    |buffer, _, _| buffer.set_window_start(0.0).err(),
    |buffer, _, _| buffer.set_window_end(1e6).err(),
    |buffer, _, _| buffer.read_settings().err(),
    |buffer, _, ranges| buffer.track_ranges(1, ranges).err(),
    |buffer, _, ranges| buffer.common_ranges(ranges).err(),
    |buffer, _, _| buffer.walked(1, RANGES).err(),
    |buffer, _, _| buffer.seek(1, 0).err(),
];

/// What each call answers, made on a copy of the buffer. One that is refused has left all that it was
/// lent as it was.
fn refusals(saved: &Buffer) -> [Option<Refusal>; 14] {
    CALLS.map(|call| {
        let (mut fates, mut ranges) = ([FATE; BATCH_FATES], [RANGE; RANGES]);
        let mut lent = saved.clone();
        let refusal = call(&mut lent, &mut fates, &mut ranges);
        if refusal.is_some() {
            assert_eq!(lent.as_bytes(), saved.as_bytes());
            assert_eq!((fates, ranges), ([FATE; BATCH_FATES], [RANGE; RANGES]));
        }
        refusal
    })
}

/// Buffers with a frame, in each of which one setting is kept with these microseconds: the offset, and
/// above 0 the window start and the window end.
fn keeping(seconds: f64, micros: i64) -> Vec<Box<Buffer>> {
    let mut buffers = vec![holding(&[0]); if seconds > 0.0 { 3 } else { 1 }];
    buffers[0].head.settings.offset = setting(seconds, micros);
    if let [_, start, end] = &mut buffers[..] {
        start.head.settings.start = setting(seconds, micros);
        end.head.settings.bounded = 1;
        end.head.settings.end = seconds.to_bits();
        end.head.settings.limit = micros;
    }
    buffers
}

#[test]
fn every_call_refuses_a_buffer_with_a_microsecond_of_before() {
    let ill = [Some(Refusal::IllFormed); 14];
    for (seconds, before, now) in HALVES {
        for saved in keeping(seconds, before) {
            let said = if before == now { [None; 14] } else { ill };
            assert_eq!(refusals(&saved), said, "{seconds}");
        }
        for saved in keeping(seconds, now) {
            assert_eq!(refusals(&saved), [None; 14], "{seconds}");
        }
    }
}

/// The microseconds of so many 128ths of a second, as versions before 0.9.0 kept them: halves to the
/// even number.
fn before(part: i64) -> i64 {
    let twice = 15_625 * part;
    let below = twice.div_euclid(2);
    below + i64::from(twice % 2 != 0 && below % 2 != 0)
}

#[test]
fn no_other_buffer_is_refused() {
    let far = 128_000_000;
    let parts = [-far..=1024 - far, -1024..=1024, far - 1024..=far];
    for part in parts.into_iter().flatten() {
        for saved in keeping(part as f64 / 128.0, before(part)) {
            let refused = saved.read_settings().is_err();
            assert_eq!(refused, part.rem_euclid(4) == 1, "{part}");
        }
    }
}

/// The offset that an append sets in sequence mode, with the group to start at `start` seconds.
fn appended(start: f64, pts: i64) -> Setting {
    let mut buffer = holding(&[]);
    assert_eq!(buffer.set_mode(Mode::Sequence), Ok(()));
    assert_eq!(buffer.set_offset(start), Ok(()));
    let frame = Offered { pts, ..FRAME };
    assert_eq!(buffer.append(frame, &mut [FATE; FATES]), Ok(0));
    assert!(buffer.read_settings().is_ok());
    buffer.head.settings.offset
}

#[test]
fn no_offset_that_an_append_sets_is_half_way() {
    let most = 1_000_000_000_000;
    let near = [7_812, 7_813, 23_437, 23_438, most - 7_813, most - 7_812];
    let offsets = near.map(|pts| [(0.0, pts), (0.0, -pts)]);
    let far = [(0.0, most), (1e6, -most), (1e6, 7_812 - most)];
    for (start, pts) in offsets.into_iter().flatten().chain(far) {
        let set = appended(start, pts);
        assert_eq!(set, setting(set.micros as f64 / 1e6, set.micros));
        assert_ne!((128.0 * set.seconds()).abs() % 2.0, 1.0, "{set:?}");
    }
}
