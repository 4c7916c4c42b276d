//! Document 02, No. 1, rule by rule, each by a small segment made by hand.

mod boxes;
mod framing;
mod limits;
mod samples;

use boxes::{fragment, run, tfdt, tfhd, traf};
use second::{list_segment, Refusal, Row, SegmentTrack};

/// Track 1 of the segment, listed as track 7; a unit is a millisecond.
const OF: SegmentTrack = SegmentTrack {
    id: 1,
    track: 7,
    timescale: 1000,
    duration: 40,
    size: 9,
    flags: 0,
};

const NON_SYNC: u32 = 0x1_0000;

const MARK: Row = [i64::MIN; 6];

/// Lists into so many places; checks that no other place is touched.
fn list_into(places: usize, of: SegmentTrack, segment: &[u8]) -> Result<Vec<Row>, Refusal> {
    let mut list = vec![MARK; places];
    let result = list_segment(of, segment, &mut list);
    let count = result.unwrap_or(0);
    assert!(list[count..].iter().all(|row| *row == MARK), "touched");
    result.map(|_| list[..count].to_vec())
}

fn list(of: SegmentTrack, segment: &[u8]) -> Result<Vec<Row>, Refusal> {
    list_into(100, of, segment)
}

#[track_caller]
fn lists(segment: &[u8], rows: &[Row]) {
    assert_eq!(list(OF, segment), Ok(rows.to_vec()));
}

#[track_caller]
fn refused(refusal: Refusal, segment: &[u8]) {
    assert_eq!(list(OF, segment), Err(refusal));
}

#[track_caller]
fn malformed(segment: &[u8]) {
    refused(Refusal::Malformed, segment);
}

/// A segment with one fragment of track 1 from media time 0, with these runs.
fn runs(runs: &[Vec<u8>]) -> Vec<u8> {
    fragment(&[traf(&[&[tfhd(0, &[1]), tfdt(0)], runs].concat())])
}

/// Two samples without columns.
fn plain() -> Vec<u8> {
    run(0, 0, &[2])
}

/// What [`plain`] lists from media time 0.
const PLAIN: [Row; 2] = [[7, 0, 0, 40_000, 1, 9], [7, 40_000, 40_000, 40_000, 1, 9]];
