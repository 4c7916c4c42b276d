//! Every call fits on a small stack, also where the buffer or the segment gives it all the work there is.

use std::thread;

use galumper::{
    feed, Buffer, Fate, Feed, Kind, ListedFrame, LumpReader, Mode, Offered, Range, SegmentTrack,
    BATCH, BATCH_FATES, FATES, LUMP, PLACES, RANGES,
};

/// What a thread needs for any call on a buffer and for a whole segment, with the few kilobytes of its
/// own.
const STACK: usize = 64 * 1024;

/// What it needs for a lump: there a movie fragment is put together that lies astride the lump buffer and
/// the last lump.
const LUMP_STACK: usize = 72 * 1024;

const KINDS: [Kind; 4] = [Kind::VIDEO, Kind::AUDIO, Kind::VIDEO, Kind::AUDIO];

/// The n-th frame, from 0, of a buffer whose four tracks take turns.
fn frame(n: usize) -> Offered {
    let time = (n / 4) as i64 * 40_000;
    Offered {
        track: n as u32 % 4 + 1,
        flagged: true,
        duration: 30_000,
        pts: time,
        dts: time,
    }
}

/// A full buffer of four tracks. Numbers and presentation times are in no order, so that both are
/// sorted; no two frames of a track touch, so that each is a range; and each is a group.
fn full() -> Box<Buffer> {
    let mut fates = [Fate::default(); FATES];
    let mut buffer = galumper::create(&KINDS).expect("four tracks");
    for n in 0..PLACES {
        assert_eq!(buffer.append(frame(n), &mut fates), Ok(0));
    }
    buffer.head.last = u32::MAX - 1 - BATCH as u32;
    buffer.head.group.number = PLACES as u32 * 4096;
    for place in 0..PLACES {
        buffer.times[place][0] = (place * 101 % 256) as i64 * 40_000;
        buffer.tags[place][3] = (place * 613 % PLACES) as u32 * 4096 + 1;
        buffer.tags[place][4] = (place * 211 % PLACES) as u32 * 4096;
    }
    buffer
}

/// The same in one group, each track with one random access point, its first frame.
fn led() -> Box<Buffer> {
    let mut buffer = full();
    for place in 0..PLACES {
        buffer.tags[place][1] = u32::from(place % 256 == 0);
        buffer.tags[place][4] = 0;
    }
    buffer
}

/// A batch of frames that take the place of others.
fn rows() -> Vec<ListedFrame> {
    let row = |n| {
        let frame = frame(n);
        ListedFrame {
            track: frame.track.into(),
            pts: frame.pts,
            dts: frame.dts,
            duration: frame.duration.into(),
            flagged: 1,
            size: 0,
        }
    };
    (500..500 + BATCH).map(row).collect()
}

/// A segment with a run of 1,024 samples, all by default.
const SEGMENT: &[u8] = b"\0\0\0\x40moof\0\0\0\x38traf\
    \0\0\0\x10tfhd\0\0\0\0\0\0\0\x01\
    \0\0\0\x10tfdt\0\0\0\0\0\0\0\0\
    \0\0\0\x10trun\0\0\0\0\0\0\x04\0";

const OF: SegmentTrack = SegmentTrack {
    id: 1,
    track: 1,
    timescale: 90_000,
    duration: 3003,
    size: 1000,
    flags: 0,
};

/// Makes calls on a thread with so many bytes of stack.
fn on_a_stack(bytes: usize, calls: impl FnOnce() + Send + 'static) {
    let thread = thread::Builder::new().stack_size(bytes).spawn(calls);
    let joined = thread.expect("a thread").join();
    joined.expect("calls that are done");
}

#[test]
fn every_call_on_a_small_stack() {
    let (mut buffer, led) = (full(), led());
    on_a_stack(STACK, move || {
        let (mut fates, mut list) = (vec![Fate::default(); FATES], vec![Range::default(); RANGES]);
        assert_eq!(buffer.track_ranges(1, &mut list), Ok(256));
        assert_eq!(buffer.common_ranges(&mut list), Ok(256));
        assert_eq!(buffer.walked(1, RANGES), Ok(256));
        assert_eq!(buffer.walked(4, 100), Ok(101));
        let last = led.times[PLACES - 1][0];
        assert_eq!(led.seek(4, last).map(|start| start.count), Ok(256));
        assert_eq!(buffer.seek(4, last).map(|start| start.count), Ok(1));
        let part = Feed::Part { start: 8, end: 64 };
        assert_eq!(feed(&[], SEGMENT, part), &SEGMENT[8..]);
        assert_eq!(buffer.set_mode(Mode::Sequence), Ok(()));
        assert_eq!(buffer.set_mode(Mode::Segments), Ok(()));
        assert_eq!(buffer.set_offset(0.0), Ok(()));
        assert_eq!(buffer.set_window_start(0.0), Ok(()));
        assert_eq!(buffer.set_window_end(60.0), Ok(()));
        assert!(buffer.read_settings().is_ok());
        assert_eq!(buffer.abort(), Ok(()));
        assert_eq!(buffer.append(frame(500), &mut fates), Ok(1));
        assert_eq!(buffer.remove(0.0, 1.0, &mut fates), Ok(100));
        let mut fates = vec![Fate::default(); BATCH_FATES];
        let batch = buffer.append_batch(&rows(), &mut fates);
        let batch = batch.expect("a call that is not refused");
        assert_eq!((batch.accepted, batch.stop), (BATCH, None));
        assert!(galumper::create(&KINDS).is_ok());
        let mut frames = vec![ListedFrame::default(); 1024];
        assert_eq!(galumper::list_segment(OF, SEGMENT, &mut frames), Ok(1024));
    });
}

/// The same segment, its movie fragment filled up to the largest.
fn largest() -> Vec<u8> {
    let mut segment = SEGMENT.to_vec();
    let free = (LUMP - segment.len()) as u32;
    segment.extend_from_slice(&free.to_be_bytes());
    segment.extend_from_slice(b"free");
    segment.resize(LUMP, 0);
    segment[..4].copy_from_slice(&(LUMP as u32).to_be_bytes());
    segment
}

#[test]
fn a_segment_in_two_lumps() {
    let segment = largest();
    on_a_stack(LUMP_STACK, move || {
        let (mut reader, mut buffer) = (LumpReader::default(), vec![0; LUMP]);
        let mut frames = vec![ListedFrame::default(); 1024];
        for place in [0, 100, LUMP - 1, LUMP] {
            let (first, last) = segment.split_at(place);
            let taken = reader.take_lump(OF, &mut buffer, first, false, &mut []);
            assert_eq!(taken, Ok(0));
            let listed = reader.take_lump(OF, &mut buffer, last, true, &mut frames);
            assert_eq!(listed, Ok(1024));
        }
    });
}
