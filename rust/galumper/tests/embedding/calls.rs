//! Every call of `calls.c` reaches the function of its name, with the arguments in their places,
//! and keeps what that hands back; a list of no places may be null; a refused creation leaves the
//! buffer that was there.

use crate::compiler::{folder, include, source, written_watched};

const WRITTEN: &str = "\
create: refused 0, count 0; 0 frames, mode 0, group 0, its start unset
set sequence: refused 0, count 0; 0 frames, mode 1, group 0, its start set
set segments: refused 0, count 0; 0 frames, mode 0, group 0, its start set
set offset: refused 0, count 0; 0 frames, mode 0, group 0, its start set
set window start: refused 0, count 0; 0 frames, mode 0, group 0, its start set
set window end: refused 0, count 0; 0 frames, mode 0, group 0, its start set
settings: refused 0, offset 0.5, start 0.25, bounded 1, end 10
append on track 1: refused 0, count 0; 1 frames, mode 0, group 0, its start set
append on track 1: refused 0, count 0; 2 frames, mode 0, group 0, its start set
append on track 2: refused 0, count 0; 3 frames, mode 0, group 0, its start set
append past the window: refused 0, count 1; 3 frames, mode 0, group 1, its start set
  frame 4, cause 2
ranges of track 1: refused 0, count 1; 3 frames, mode 0, group 1, its start set
  from 500000 to 2500000
ranges of track 2: refused 0, count 1; 3 frames, mode 0, group 1, its start set
  from 1200000 to 2200000
common ranges: refused 0, count 1; 3 frames, mode 0, group 1, its start set
  from 1200000 to 2200000
walk of track 1: refused 0, count 2; 3 frames, mode 0, group 1, its start set
walk of track 2: refused 0, count 1; 3 frames, mode 0, group 1, its start set
walk of track 1 without places: refused 0, count 1; 3 frames, mode 0, group 1, its start set
walk of track 3: refused 3, count 0; 3 frames, mode 0, group 1, its start set
remove: refused 0, count 1; 2 frames, mode 0, group 1, its start set
  frame 2, cause 6
abort: refused 0, count 0; 2 frames, mode 0, group 2, its start set
settings: refused 0, offset 0.5, start 0, bounded 0, end 0
append without lines: refused 2, count 0; 2 frames, mode 0, group 2, its start set
remove without lines: refused 2, count 0; 2 frames, mode 0, group 2, its start set
ranges without places: refused 10, count 0; 2 frames, mode 0, group 2, its start set
common ranges without places: refused 10, count 0; 2 frames, mode 0, group 2, its start set
create without kinds: refused 11, count 0; 2 frames, mode 0, group 2, its start set
create with an unknown kind: refused 11, count 0; 2 frames, mode 0, group 2, its start set
abort in the last group: refused 9, count 0; 2 frames, mode 0, group 4294967295, its start set
";

#[test]
fn every_call() {
    let written = written_watched(&source("calls.c"), &include(), &folder("calls"));
    assert_eq!(written, WRITTEN);
}
