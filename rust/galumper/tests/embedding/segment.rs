//! Listing a segment from C: the track's numbers arrive in their places and the rows in theirs, each
//! refusal comes in its order and leaves the list, and what has no length may be null.

use crate::compiler::{folder, include, source, written_watched};

const WRITTEN: &str = "\
list: refused 0, count 3
  track 2, pts 988888, dts 1000000, duration 33334, flagged 1, size 500
  track 2, pts 1033333, dts 1033333, duration 22222, flagged 0, size 400
  track 2, pts 1055555, dts 1055555, duration 22222, flagged 0, size 400
as many places: refused 0, count 3
  track 2, pts 988888, dts 1000000, duration 33334, flagged 1, size 500
  track 2, pts 1033333, dts 1033333, duration 22222, flagged 0, size 400
  track 2, pts 1055555, dts 1055555, duration 22222, flagged 0, size 400
a place too few: refused 10, count 0
no place: refused 10, count 0
another track: refused 0, count 0
another track, no place: refused 0, count 0
a frame that does not last: refused 4, count 0
too fine a timescale: refused 4, count 0
no timescale: refused 4, count 0
and a byte less: refused 12, count 0
no movie fragment: refused 12, count 0
no segment: refused 12, count 0
";

#[test]
fn every_answer() {
    let written = written_watched(&source("segment.c"), &include(), &folder("segment"));
    assert_eq!(written, WRITTEN);
}
