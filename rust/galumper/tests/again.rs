//! The settings of a buffer that was saved before version 0.9.0, made again on a fresh one.

use galumper::{Buffer, Cause, Fate, Kind, Mode, Offered, Refusal, Setting, FATES};

const KINDS: [Kind; 3] = [Kind::VIDEO, Kind::AUDIO, Kind::VIDEO];

/// Half way between two microseconds. It was 7,812 and is 7,813.
const HALF: f64 = 0.0078125;

/// What it was, as a double.
const BELOW: f64 = 0.007812;

fn fresh() -> Box<Buffer> {
    galumper::create(&KINDS).expect("three tracks")
}

/// The buffer as it was saved where it was given the half and not the double below it.
fn saved(mut buffer: Box<Buffer>) -> Box<Buffer> {
    let settings = &mut buffer.head.settings;
    for bits in [
        &mut settings.offset.bits,
        &mut settings.start.bits,
        &mut settings.end,
    ] {
        if *bits == BELOW.to_bits() {
            *bits = HALF.to_bits();
        }
    }
    assert_eq!(buffer.read_settings(), Err(Refusal::IllFormed));
    buffer
}

/// Appends a frame that is offered at a time; tells where it is stored, and its tags.
fn appended(buffer: &mut Buffer, time: i64) -> ([i64; 2], [u32; 5]) {
    let frame = Offered {
        track: 1,
        flagged: true,
        duration: 100,
        pts: time,
        dts: time,
    };
    let cause = Cause(7);
    let lines = buffer.append(frame, &mut [Fate { number: 7, cause }; FATES]);
    assert_eq!(lines, Ok(0));
    let place = buffer.head.nframes - 1;
    (buffer.times[place], buffer.tags[place])
}

#[test]
fn it_is_the_buffer_that_was_given_them_by_this_version() {
    let give = |buffer: &mut Buffer, offset, start, end| -> Result<(), Refusal> {
        buffer.set_window_end(end)?;
        buffer.set_window_start(start)?;
        buffer.set_offset(offset)
    };
    let negative = -0.0234375;
    for [offset, start, end] in [
        [HALF, -0.0, f64::INFINITY],
        [negative, HALF, 0.0234375],
        [-0.0, 0.001, HALF],
        [HALF, HALF, 1e6],
    ] {
        let mut given = fresh();
        assert_eq!(give(&mut given, offset, start, end), Ok(()));
        let mut former = given.clone();
        let settings = &mut former.head.settings;
        for micros in [
            &mut settings.offset.micros,
            &mut settings.start.micros,
            &mut settings.limit,
        ] {
            match *micros {
                7_813 => *micros = 7_812,
                -23_437 => *micros = -23_438,
                _ => {}
            }
        }
        assert_eq!(former.read_settings(), Err(Refusal::IllFormed));
        let again = former.made_again().expect("settings");
        assert_eq!(again, given);
        let read = again.read_settings().expect("well-formed");
        let bits = [read.offset, read.start, read.end.unwrap_or(f64::INFINITY)].map(f64::to_bits);
        assert_eq!(bits, [offset, start, end].map(f64::to_bits));
    }
}

#[test]
fn a_frame_appended_again_stands_a_microsecond_later() {
    let mut buffer = fresh();
    assert_eq!(buffer.abort(), Ok(()));
    assert_eq!(buffer.set_offset(BELOW), Ok(()));
    appended(&mut buffer, 0);
    assert_eq!(appended(&mut buffer, 100), ([7_912; 2], [1, 1, 100, 2, 1]));
    let mut again = saved(buffer).made_again().expect("settings");
    assert_eq!(again.head.nframes, 0);
    assert_eq!(appended(&mut again, 100), ([7_913; 2], [1, 1, 100, 1, 0]));
}

/// The mode, and where the next group starts.
fn mode_and_start(buffer: &Buffer) -> (u32, Option<i64>) {
    let group = buffer.head.group;
    (buffer.head.mode, (group.begun == 1).then_some(group.start))
}

type Calls = fn(&mut Buffer) -> Result<(), Refusal>;

#[test]
fn where_the_next_group_starts() {
    let sequence = Mode::Sequence.number();
    let made: [(Calls, _); 5] = [
        // An offset of segments mode starts no group.
        (|buffer| buffer.set_offset(BELOW), (0, None)),
        // One that is set in sequence mode does.
        (
            |buffer| {
                buffer.set_mode(Mode::Sequence)?;
                buffer.set_offset(BELOW)
            },
            (sequence, Some(7_813)),
        ),
        // Without frames the group before ends at 0.
        (
            |buffer| {
                buffer.set_offset(BELOW)?;
                buffer.set_mode(Mode::Sequence)
            },
            (sequence, Some(0)),
        ),
        (
            |buffer| {
                buffer.set_mode(Mode::Sequence)?;
                buffer.set_offset(BELOW)?;
                buffer.abort()
            },
            (sequence, Some(0)),
        ),
        // The offset that an append has set is where no group starts.
        (
            |buffer| {
                buffer.set_mode(Mode::Sequence)?;
                appended(buffer, 5_000);
                buffer.set_window_start(BELOW)
            },
            (sequence, Some(0)),
        ),
    ];
    for (make, start) in made {
        let mut buffer = fresh();
        assert_eq!(make(&mut buffer), Ok(()));
        let former = saved(buffer);
        let again = former.made_again().expect("settings");
        assert_eq!(mode_and_start(&again), start);
        let offset = |buffer: &Buffer| buffer.head.settings.offset.bits;
        assert_eq!(offset(&again), offset(&former));
    }
}

#[test]
fn a_window_that_has_no_instant_any_more() {
    let mut buffer = fresh();
    assert_eq!(buffer.set_window_start(BELOW), Ok(()));
    assert_eq!(buffer.set_window_end(0.007813), Ok(()));
    let again = saved(buffer).made_again();
    assert_eq!(again, Err(Refusal::Order));
}

#[test]
fn an_offset_that_only_an_append_can_set() {
    let mut buffer = fresh();
    assert_eq!(buffer.set_mode(Mode::Sequence), Ok(()));
    assert_eq!(buffer.set_offset(1e6), Ok(()));
    appended(&mut buffer, -1);
    let offset = buffer.head.settings.offset;
    assert_eq!(offset.micros, 1_000_000_000_001);
    assert_eq!(buffer.set_window_end(BELOW), Ok(()));
    let again = saved(buffer).made_again();
    assert_eq!(again, Err(Refusal::Seconds));
}

#[test]
fn what_was_never_a_buffer() {
    let spoilers: [fn(&mut Buffer); 4] = [
        |buffer| buffer.head.ntracks = 0,
        |buffer| buffer.head.ntracks = 5,
        |buffer| buffer.head.ntracks = usize::MAX,
        |buffer| buffer.head.tracks[2].kind = Kind(2),
    ];
    for spoil in spoilers {
        let mut buffer = fresh();
        spoil(&mut buffer);
        assert_eq!(buffer.made_again(), Err(Refusal::Kinds));
    }
    let mut buffer = fresh();
    buffer.head.settings.offset = Setting {
        bits: f64::NAN.to_bits(),
        micros: 0,
    };
    assert_eq!(buffer.made_again(), Err(Refusal::Seconds));
}
