//! The library lists the segments of `cases` as ffprobe does, and what is listed goes into the buffer:
//! `README.md` says how segments and texts were made.

mod appended;
mod told;

use std::fs;

use galumper::{list_segment, ListedFrame, Refusal, SegmentTrack};

use crate::told::{cases, file, Case};

/// What no call writes.
const UNTOUCHED: ListedFrame = ListedFrame {
    track: -1,
    pts: -1,
    dts: -1,
    duration: -1,
    flagged: -1,
    size: -1,
};

#[test]
fn every_track_is_listed_as_ffprobe_does() {
    for Case {
        name,
        segment,
        tracks,
    } in cases()
    {
        for told in tracks {
            let rows = told.rows();
            let mut list = vec![UNTOUCHED; rows.len() + 1];
            let count = list_segment(told.of, &segment, &mut list);
            assert_eq!(count, Ok(rows.len()), "{name}, {:?}", told.of);
            assert_eq!(list[..rows.len()], rows, "{name}, {:?}", told.of);
            assert_eq!(list.last(), Some(&UNTOUCHED), "{name}");
        }
    }
}

#[test]
fn a_list_with_a_place_too_few_is_refused() {
    for Case {
        name,
        segment,
        tracks,
    } in cases()
    {
        for told in tracks {
            let Some(places) = told.rows().len().checked_sub(1) else {
                continue;
            };
            let mut list = vec![UNTOUCHED; places];
            let count = list_segment(told.of, &segment, &mut list);
            assert_eq!(count, Err(Refusal::ShortList), "{name}");
            assert_eq!(list, vec![UNTOUCHED; places], "{name}");
        }
    }
}

#[test]
fn a_segment_without_its_last_byte_is_refused() {
    for Case {
        name,
        segment,
        tracks,
    } in cases()
    {
        for told in tracks {
            let cut = &segment[..segment.len() - 1];
            let count = list_segment(told.of, cut, &mut [UNTOUCHED; 100]);
            assert_eq!(count, Err(Refusal::Malformed), "{name}");
        }
    }
}

#[test]
fn smooth_streaming_is_refused() {
    let segment = fs::read(file("smooth.m4s")).expect("a segment");
    let of = SegmentTrack {
        id: 1,
        track: 1,
        timescale: 1_000_000,
        duration: 0,
        size: 0,
        flags: 0,
    };
    let count = list_segment(of, &segment, &mut [UNTOUCHED; 100]);
    assert_eq!(count, Err(Refusal::Malformed));
}

#[test]
fn there_are_enough_and_they_are_small() {
    let cases = cases();
    let bytes: usize = cases.iter().map(|case| case.segment.len()).sum();
    assert!(
        cases.len() >= 19 && bytes < 200_000,
        "{} cases, {bytes} bytes",
        cases.len()
    );
}
