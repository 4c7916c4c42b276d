//! Seeking from C: track and instant arrive in their places, all 64 bits of the instant, the three numbers
//! come back in theirs, and each refusal in its order, beside zeros.

use crate::compiler::{folder, include, source, written_watched};

const WRITTEN: &str = "\
nothing stored: refused 15, target 0, flagged 0, count 0
past a random access point of another group: refused 0, target 2, flagged 1, count 2
past a frame of another group: refused 0, target 4, flagged 3, count 2
the last of a frame: refused 0, target 5, flagged 5, count 1
the first of a frame: refused 0, target 1, flagged 1, count 1
an end: refused 15, target 0, flagged 0, count 0
before all: refused 15, target 0, flagged 0, count 0
the least instant: refused 15, target 0, flagged 0, count 0
the greatest instant: refused 15, target 0, flagged 0, count 0
track 2: refused 0, target 7, flagged 6, count 2
track 2, the lower half of the instant: refused 15, target 0, flagged 0, count 0
track 2, what track 1 has: refused 15, target 0, flagged 0, count 0
track 0: refused 3, target 0, flagged 0, count 0
track 3, no such instant: refused 3, target 0, flagged 0, count 0
no random access point of its group: refused 15, target 0, flagged 0, count 0
nor is it itself: refused 15, target 0, flagged 0, count 0
another group: refused 0, target 4, flagged 3, count 2
an ill-formed buffer: refused 1, target 0, flagged 0, count 0
an ill-formed buffer, no such track: refused 1, target 0, flagged 0, count 0
";

#[test]
fn every_answer() {
    let written = written_watched(&source("seek.c"), &include(), &folder("seek"));
    assert_eq!(written, WRITTEN);
}
