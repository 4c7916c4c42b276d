//! Appending a batch from C: the rows arrive in their places, the stop and the counts in theirs,
//! each refusal comes in its order and leaves buffer and list, and a list of no places may be null.

use crate::compiler::{folder, include, source, written_watched};

const WRITTEN: &str = "\
three frames: refused 0, stop 0, accepted 3, count 2
  frame 1, cause 3
  frame 3, cause 1
stored: track 2, pts 20000, dts 10000, duration 30000, flagged 1, number 2, group 0
and one whose flag is 2: refused 0, stop 4, accepted 3, count 3
  frame 4, cause 3
  frame 2, cause 4
  frame 6, cause 1
stored: track 2, pts 20000, dts 10000, duration 30000, flagged 1, number 5, group 1
a track that is none: refused 0, stop 3, accepted 0, count 0
no frames: refused 0, stop 0, accepted 0, count 0
a line too few: refused 2, stop 0, accepted 0, count 0
no frames, no lines: refused 2, stop 0, accepted 0, count 0
65 frames: refused 13, stop 0, accepted 0, count 0
65 frames, no lines: refused 13, stop 0, accepted 0, count 0
65 frames, no lines, an ill-formed buffer: refused 1, stop 0, accepted 0, count 0
nothing, an ill-formed buffer: refused 1, stop 0, accepted 0, count 0
";

#[test]
fn every_answer() {
    let written = written_watched(&source("batch.c"), &include(), &folder("batch"));
    assert_eq!(written, WRITTEN);
}
