//! What to feed from C: lengths, places and flag arrive in theirs, the bytes stand in what was lent, never
//! in a copy, an overrunning place gives the empty part at the segment's start, and what has no length may
//! be null.

use crate::compiler::{folder, include, source, written_watched};

const WRITTEN: &str = "\
whole: [moov] at 0 of the initialization bytes
whole, whatever the place: [moov] at 0 of the initialization bytes
a part: [frame] at 8 of the segment
another: [mdat] at 4 of the segment
all of the segment: [moofmdatframes] at 0 of the segment
its last byte: [s] at 13 of the segment
no byte: [] at 8 of the segment
none at the end: [] at 14 of the segment
a byte too many: [] at 0 of the segment
none past the end: [] at 0 of the segment
up to the greatest place: [] at 0 of the segment
only the greatest place: [] at 0 of the segment
from the greatest place: [] at 0 of the segment
a start above its end: [] at 0 of the segment
nothing lent, whole: [] at null
nothing lent, a part: [] at null
nothing lent, an overrun: [] at null
no initialization bytes, whole: [] at null
no initialization bytes, a part: [moof] at 0 of the segment
no segment, whole: [moov] at 0 of the initialization bytes
no segment, an overrun: [] at null
no bytes of the two, whole: [] at 2 of the initialization bytes
no bytes of the two, a part: [] at 2 of the segment
a segment within, an overrun: [] at 4 of the segment
a segment within, a part: [at] at 6 of the segment
the greatest number: 4 bytes from 0 on
";

#[test]
fn every_answer() {
    let written = written_watched(&source("feed.c"), &include(), &folder("feed"));
    assert_eq!(written, WRITTEN);
}
