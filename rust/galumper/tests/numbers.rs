//! A number in the buffer that is none of its kind has every call refused 1, and nothing changes,
//! down to the last bit.

use galumper::{
    Buffer, Cause, Fate, Kind, ListedFrame, Mode, Offered, Range, Refusal, BATCH, FATES, PLACES,
    RANGES, SIZE,
};

const FRAME: Offered = Offered {
    track: 1,
    flagged: true,
    duration: 40_000,
    pts: 0,
    dts: 0,
};

/// What no call writes.
const FATE: Fate = Fate {
    number: 7,
    cause: Cause(7),
};
const RANGE: Range = Range { start: 7, end: 7 };

/// NaNs, quiet and signalling, of either sign, with the least and the greatest payload.
const NANS: [u64; 6] = [
    0x7ff8_0000_0000_0000,
    0xfff8_0000_0000_0000,
    0x7ff0_0000_0000_0001,
    0xfff0_0000_0000_0001,
    0x7ff4_dead_beef_0042,
    0xffff_ffff_ffff_ffff,
];

/// A buffer of two tracks with a window end that holds a frame.
fn held() -> Box<Buffer> {
    let mut buffer = galumper::create(&[Kind::VIDEO, Kind::AUDIO]).expect("two tracks");
    assert_eq!(buffer.set_window_end(60.0), Ok(()));
    assert_eq!(buffer.append(FRAME, &mut [FATE; FATES]), Ok(0));
    buffer
}

/// Every call refuses the buffer by 1 and leaves it as it was.
fn refused(spoilt: &Buffer) {
    let (mut fates, mut list) = ([FATE; FATES], [RANGE; RANGES]);
    let ill = Refusal::IllFormed;
    let mut buffer = Box::new(spoilt.clone());
    assert_eq!(buffer.append(FRAME, &mut fates), Err(ill));
    let rows = [ListedFrame::default(); BATCH + 1];
    for rows in [&rows[..], &[]] {
        assert_eq!(buffer.append_batch(rows, &mut fates), Err(ill));
    }
    assert_eq!(buffer.remove(0.0, 1.0, &mut fates), Err(ill));
    assert_eq!(buffer.abort(), Err(ill));
    assert_eq!(buffer.set_mode(Mode::Segments), Err(ill));
    assert_eq!(buffer.set_mode(Mode::Sequence), Err(ill));
    assert_eq!(buffer.set_offset(1.0), Err(ill));
    assert_eq!(buffer.set_window_start(1.0), Err(ill));
    assert_eq!(buffer.set_window_end(1.0), Err(ill));
    assert_eq!(buffer.read_settings(), Err(ill));
    assert_eq!(buffer.track_ranges(1, &mut list), Err(ill));
    assert_eq!(buffer.common_ranges(&mut list), Err(ill));
    for track in [0, 1] {
        assert_eq!(buffer.walked(track, RANGES), Err(ill));
        assert_eq!(buffer.seek(track, 0), Err(ill));
    }
    assert_eq!(*buffer, *spoilt);
    assert_eq!((fates, list), ([FATE; FATES], [RANGE; RANGES]));
}

#[test]
fn a_number_that_is_none_of_its_kind() {
    let spoilers: [fn(&mut Buffer); 16] = [
        |buffer| buffer.tags[0][1] = 2,
        |buffer| buffer.tags[0][1] = u32::MAX,
        |buffer| buffer.tags[PLACES - 1][1] = 1,
        |buffer| buffer.tags[0][4] = 1,
        |buffer| buffer.tags[0][4] = u32::MAX,
        |buffer| buffer.tags[PLACES - 1][4] = 1,
        |buffer| buffer.times[PLACES - 1][0] = 1,
        |buffer| buffer.head.tracks[0].kind = Kind(2),
        |buffer| buffer.head.tracks[0].known = 2,
        |buffer| buffer.head.tracks[1].need = 2,
        |buffer| buffer.head.tracks[3].known = 128,
        |buffer| buffer.head.mode = 2,
        |buffer| buffer.head.group.begun = 2,
        |buffer| buffer.head.group.begun = u32::MAX,
        |buffer| buffer.head.settings.bounded = 2,
        |buffer| buffer.head.settings.bounded = u64::MAX,
    ];
    for spoil in spoilers {
        let mut buffer = held();
        spoil(&mut buffer);
        refused(&buffer);
    }
}

#[test]
fn the_bits_of_a_nan() {
    let places: [fn(&mut Buffer) -> &mut u64; 3] = [
        |buffer| &mut buffer.head.settings.offset.bits,
        |buffer| &mut buffer.head.settings.start.bits,
        |buffer| &mut buffer.head.settings.end,
    ];
    for place in places {
        for bits in NANS {
            let mut buffer = held();
            *place(&mut buffer) = bits;
            refused(&buffer);
        }
    }
}

#[test]
fn a_double_beside_an_absent_window_end() {
    for bits in [1.0, -0.0, f64::INFINITY, f64::NAN].map(f64::to_bits) {
        let mut buffer = held();
        assert_eq!(buffer.set_window_end(f64::INFINITY), Ok(()));
        buffer.head.settings.end = bits;
        refused(&buffer);
    }
}

#[test]
fn a_track_past_a_byte() {
    let mut buffer = held();
    for track in [0, 3, 257, u32::MAX] {
        let offered = Offered { track, ..FRAME };
        let appended = buffer.append(offered, &mut [FATE; FATES]);
        assert_eq!(appended, Err(Refusal::NoTrack), "{track}");
        let reported = buffer.track_ranges(track, &mut [RANGE; RANGES]);
        assert_eq!(reported, Err(Refusal::NoTrack), "{track}");
        let walked = buffer.walked(track, RANGES);
        assert_eq!(walked, Err(Refusal::NoTrack), "{track}");
        let sought = buffer.seek(track, 0);
        assert_eq!(sought, Err(Refusal::NoTrack), "{track}");
    }
    assert_eq!(buffer, held());
}

#[test]
fn a_refused_creation() {
    for kinds in [&[][..], &[Kind(2)], &[Kind::VIDEO; 5]] {
        let created = galumper::create(kinds);
        assert_eq!(created, Err(Refusal::Kinds), "{kinds:?}");
    }
}

#[test]
fn a_setting_as_it_was_given() {
    let mut buffer = held();
    assert_eq!(buffer.set_offset(-0.0), Ok(()));
    let offset = buffer.head.settings.offset;
    assert_eq!((offset.bits, offset.micros), (0x8000_0000_0000_0000, 0));
    assert!(offset.seconds().is_sign_negative());
}

#[test]
fn bytes_saved_and_loaded() {
    let buffer = held();
    let mut bytes = *buffer.as_bytes();
    assert_eq!(Buffer::from_bytes(&bytes), buffer);
    for place in 0..SIZE {
        bytes[place] ^= 1;
        assert_ne!(
            Buffer::from_bytes(&bytes),
            buffer,
            "byte {place} is padding"
        );
        bytes[place] ^= 1;
    }
}
