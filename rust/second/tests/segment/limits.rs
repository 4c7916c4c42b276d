//! Refusals 4 and 10, and the order of all three.

use std::slice;

use second::{Refusal, SegmentTrack};

use crate::boxes::{fragment, full, run, tfdt, tfhd, traf};
use crate::{list, list_into, lists, plain, refused, runs, OF, PLAIN};

#[test]
fn a_timescale_outside_its_limits() {
    for timescale in [0, 1_000_001, u32::MAX] {
        let of = SegmentTrack { timescale, ..OF };
        assert_eq!(list(of, &fragment(&[])), Err(Refusal::OfferedLimits));
        assert_eq!(list(of, &[]), Err(Refusal::Malformed));
    }
    for timescale in [1, 1_000_000] {
        assert_eq!(
            list(SegmentTrack { timescale, ..OF }, &fragment(&[])),
            Ok(vec![])
        );
    }
}

#[test]
fn frames_outside_their_limits() {
    let at = |time: u64, offset: i32, duration: u32| {
        let time = full(b"tfdt", 1, 0, &[(time >> 32) as u32, time as u32]);
        let run = run(1, 0x900, &[1, duration, offset as u32]);
        fragment(&[traf(&[tfhd(0, &[1]), time, run])])
    };
    let limit = 1_000_000_000; // 1,000,000 s in milliseconds
    let row = |pts, dts, duration| [[7, pts, dts, duration, 1, 9]];
    let micros = 1_000_000_000_000;
    lists(&at(limit, 0, 1), &row(micros, micros, 1000));
    refused(Refusal::OfferedLimits, &at(limit + 1, 0, 1));
    refused(Refusal::OfferedLimits, &at(limit + 1, -1, 1));
    refused(Refusal::OfferedLimits, &at(limit, 1, 1));
    lists(&at(0, -1_000_000_000, 1), &row(-micros, 0, 1000));
    refused(Refusal::OfferedLimits, &at(0, -1_000_000_001, 1));
    lists(&at(0, 0, 10_000), &row(0, 0, 10_000_000));
    refused(Refusal::OfferedLimits, &at(0, 0, 10_001));
    refused(Refusal::OfferedLimits, &at(0, 0, 0));
}

#[test]
fn decode_times_of_64_bits_do_not_wrap() {
    let at = |time: u64, runs: &[Vec<u8>]| {
        let time = full(b"tfdt", 1, 0, &[(time >> 32) as u32, time as u32]);
        fragment(&[traf(&[&[tfhd(0, &[1]), time], runs].concat())])
    };
    for time in [
        u64::MAX,
        u64::MAX - 40,
        1 << 63,
        (1 << 63) - 1,
        u64::MAX / 1_000_000 + 1,
    ] {
        refused(Refusal::OfferedLimits, &at(time, &[plain()]));
        refused(Refusal::OfferedLimits, &at(time, &[run(0, 0, &[u32::MAX])]));
        lists(&at(time, &[run(0, 0, &[0])]), &[]);
    }
    // Durations alone lead there too.
    refused(
        Refusal::OfferedLimits,
        &at(0, &[run(0, 0x100, &[2, u32::MAX, 1])]),
    );
}

#[test]
fn a_list_too_short() {
    let segment = runs(&[plain()]);
    assert_eq!(list_into(1, OF, &segment), Err(Refusal::ShortList));
    assert_eq!(list_into(2, OF, &segment), Ok(PLAIN.to_vec()));
    assert_eq!(list_into(0, OF, &runs(&[])), Ok(vec![]));
}

#[test]
fn a_run_without_columns_announces_any_count() {
    // Of a microsecond each, all of them are within the limits.
    let micros = SegmentTrack {
        timescale: 1_000_000,
        duration: 1,
        ..OF
    };
    let huge = run(0, 0, &[u32::MAX]);
    assert_eq!(
        list(micros, &runs(slice::from_ref(&huge))),
        Err(Refusal::ShortList)
    );
    // 233 such runs of a microsecond each go beyond them: 232 do not.
    let many = |count| runs(&vec![huge.clone(); count]);
    assert_eq!(list(micros, &many(232)), Err(Refusal::ShortList));
    assert_eq!(list(micros, &many(233)), Err(Refusal::OfferedLimits));
    // A unit of 1 s leads beyond them, one of no length is no frame.
    let seconds = SegmentTrack {
        timescale: 1,
        duration: 1,
        ..OF
    };
    assert_eq!(
        list(seconds, &runs(slice::from_ref(&huge))),
        Err(Refusal::OfferedLimits)
    );
    let none = SegmentTrack { duration: 0, ..OF };
    assert_eq!(list(none, &runs(&[huge])), Err(Refusal::OfferedLimits));
    // The last frame at the limit, and one beyond it.
    assert_eq!(
        list(seconds, &runs(&[run(0, 0, &[1_000_001])])),
        Err(Refusal::ShortList)
    );
    assert_eq!(
        list(seconds, &runs(&[run(0, 0, &[1_000_002])])),
        Err(Refusal::OfferedLimits)
    );
}

/// Where the list is short, a run without columns is judged by its ends: the same as sample by
/// sample, at timescales at which durations vary by one.
#[test]
fn a_run_without_columns_is_judged_as_its_samples_are() {
    for timescale in [
        1, 2, 3, 7, 30, 999, 48_000, 90_000, 999_983, 999_999, 1_000_000,
    ] {
        for duration in [
            0,
            1,
            2,
            3,
            10 * timescale - 1,
            10 * timescale,
            10 * timescale + 1,
        ] {
            let limit = 1_000_000 * u64::from(timescale);
            let nearly = limit.saturating_sub(19 * u64::from(duration));
            for start in [0, 1, 2, nearly, nearly + 1, limit] {
                let of = SegmentTrack {
                    timescale,
                    duration,
                    ..OF
                };
                let time = full(b"tfdt", 1, 0, &[(start >> 32) as u32, start as u32]);
                let segment = fragment(&[traf(&[tfhd(0, &[1]), time, run(0, 0, &[20])])]);
                let judged = list_into(19, of, &segment).map(|_| ());
                let walked = list_into(20, of, &segment).map(|_| ());
                let wanted = walked.and(Err(Refusal::ShortList));
                assert_eq!(judged, wanted, "{timescale} {duration} {start}");
            }
        }
    }
}

#[test]
fn the_order_is_12_4_10_over_the_whole() {
    let late = [1, 10_001]; // a frame that lasts too long, in milliseconds
    let beyond = runs(&[plain(), run(0, 0x100, &late)]);
    assert_eq!(list_into(0, OF, &beyond), Err(Refusal::OfferedLimits));
    let torn = [beyond, vec![0]].concat();
    assert_eq!(list_into(0, OF, &torn), Err(Refusal::Malformed));
    let of = SegmentTrack { timescale: 0, ..OF };
    assert_eq!(list_into(0, of, &torn), Err(Refusal::Malformed));
    // A bad box in another track's fragment, after it all.
    let others = fragment(&[
        traf(&[tfhd(0, &[1]), tfdt(0), run(0, 0x100, &late)]),
        traf(&[tfhd(0, &[2]), vec![0; 7]]),
    ]);
    assert_eq!(list_into(0, OF, &others), Err(Refusal::Malformed));
}
