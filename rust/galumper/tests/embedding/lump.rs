//! A segment in lumps from C: track, lump, buffer and end arrive in their places, the reader is kept
//! unless the call is refused, each refusal comes in its order and leaves all, and what has no length may
//! be null.

use crate::compiler::{folder, include, source, written_watched};

const WRITTEN: &str = "\
a fresh reader is zeros
more: refused 0, count 0
  seen 3, left 0, kept 0, phase 0, fragments 0, in the buffer
more: refused 0, count 0
  seen 0, left 56, kept 0, phase 2, fragments 1, in the buffer
more: refused 0, count 0
  seen 0, left 26, kept 30, phase 2, fragments 1, in the buffer 0 16 116 102
nothing: refused 0, count 0
too long a lump: refused 13, count 0
too short a buffer: refused 13, count 0
no buffer: refused 13, count 0
a byte too few: refused 12, count 0
no place: refused 10, count 0
no timescale: refused 4, count 0
the rest: refused 0, count 2
  track 2, pts 1000000, dts 1000000, duration 22222, flagged 0, size 400
  track 2, pts 1022222, dts 1022222, duration 22222, flagged 0, size 400
and again: refused 12, count 0
more: refused 0, count 0
  seen 0, left 0, kept 56, phase 0, fragments 1, in the buffer 0 0 0 2
more: refused 0, count 0
  seen 8, left 0, kept 56, phase 0, fragments 1, in the buffer 0 0 0 2
more: refused 0, count 0
  seen 0, left 2, kept 56, phase 1, fragments 1, in the buffer 0 0 0 2
more: refused 0, count 0
  seen 0, left 0, kept 56, phase 0, fragments 1, in the buffer 0 0 0 2
a large movie fragment: refused 14, count 0
a byte less of it, and the end: refused 12, count 0
as many places: refused 0, count 2
  track 2, pts 1000000, dts 1000000, duration 22222, flagged 0, size 400
  track 2, pts 1022222, dts 1022222, duration 22222, flagged 0, size 400
all at once: refused 0, count 2
  track 2, pts 1000000, dts 1000000, duration 22222, flagged 0, size 400
  track 2, pts 1022222, dts 1022222, duration 22222, flagged 0, size 400
an ill-formed reader: refused 1, count 0
the library hands the same back
";

#[test]
fn every_answer() {
    let written = written_watched(&source("lump.c"), &include(), &folder("lump"));
    assert_eq!(written, WRITTEN);
}
