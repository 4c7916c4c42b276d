//! What is timed, and how.

use std::hint::black_box;
use std::slice::Chunks;
use std::time::Instant;

use script::{row_of, FrameField, Place, Poke, Subject};
use second::{Mode, Offered, BATCH_FRAMES, BATCH_LINES, FRAME_PLACES, LUMP_BYTES};

use crate::grouping::Grouping;
use crate::line::Line;
use crate::segment::{heavy_segment, segment, TRACK};

/// A frame lasts 40 ms: 25 frames a second.
const FRAME: u32 = 40_000;

/// A random access point each second.
const FRAMES_A_SECOND: i64 = 25;

/// A random access point each so many frames of a track in the store that a batch is put to, so that
/// as many frames as a batch has can be removed, whole groups on each track.
const BATCH_GROUP: i64 = 16;

/// The appends of the survey line.
const SURVEY: i64 = 100_000;

/// The survey line keeps this many seconds, 1,000 frames.
const SURVEY_KEPT: i64 = 40;

/// Calls timed in a round, of which the median counts.
const CALLS: usize = 200;

/// Segments with much media data timed in a round, of which the median counts.
const HEAVY_SEGMENTS: usize = 5;

/// The frames of such a segment, and the bytes of each: 10 MB of media data.
pub const HEAVY_FRAMES: u32 = 2_500;
pub const HEAVY_BYTES: u32 = 4_000;

/// The refusal of a report into too few places.
const SHORT_LIST: u32 = 10;

/// What is timed.
#[derive(Clone, Copy, Debug, PartialEq, Eq)]
pub enum Case {
    /// Creating a buffer of so many tracks.
    Create(u32),
    /// A call on a buffer of so many tracks that holds so many frames.
    Call(Call, u32, usize),
    /// An append of the survey line, with its share of the removals.
    Survey,
    /// Listing a segment of so many frames.
    Segment(u32),
    /// Listing a segment with much media data.
    Heavy(Coming),
    /// As many frames as a batch can have, after the last of a buffer of so many tracks that they
    /// fill to its last place.
    Frames(Way, u32),
    /// A report of a line, into so many places, on a buffer that holds so many frames.
    Report(Report, Line, usize, usize),
    /// A call on a store of 1,023 frames of some groups, with a random access point each so many of
    /// them, by which so many go.
    Walk(Walk, Grouping, usize, usize),
    /// A seek into the last frame of a store of some groups, with a random access point each so many
    /// frames, so many frames in all, and so many to decode.
    Seek(Grouping, usize, usize, usize),
}

/// A call that may walk through groups.
#[derive(Clone, Copy, Debug, PartialEq, Eq)]
pub enum Walk {
    /// A random access point after the last.
    After,
    /// A random access point over the second frame.
    Over,
    /// The oldest second goes.
    Remove,
}

/// A report of a line.
#[derive(Clone, Copy, Debug, PartialEq, Eq)]
pub enum Report {
    /// That of a track which has all the frames.
    Track,
    /// That of two tracks which have half of the frames each.
    Common,
    /// The count of the frames that a track's report takes.
    Walked,
}

/// How a segment comes.
#[derive(Clone, Copy, Debug, PartialEq, Eq)]
pub enum Coming {
    /// In one piece.
    Whole,
    /// In lumps of so many bytes.
    InLumps(usize),
}

/// How several frames are appended.
#[derive(Clone, Copy, Debug, PartialEq, Eq)]
pub enum Way {
    /// By a call each.
    OneByOne,
    /// By one call.
    Batch,
}

/// A call on a buffer.
#[derive(Clone, Copy, Debug, PartialEq, Eq)]
pub enum Call {
    /// A frame that goes on after the last; refused in a full store.
    AppendLast,
    /// After an abort, a random access point over a frame in the middle.
    AppendOver,
    /// The oldest second goes.
    Remove,
    /// An abort.
    Abort,
    /// Setting sequence mode.
    SetMode,
    /// Setting the offset.
    SetOffset,
    /// Setting the window start.
    SetWindowStart,
    /// Setting the window end.
    SetWindowEnd,
    /// Reading the settings back.
    ReadSettings,
    /// A track's report.
    TrackRanges,
    /// The common report.
    CommonRanges,
}

/// An implementation to be timed, whatever its state.
pub trait Measure {
    /// One round of a case: microseconds a call, or for all of several frames.
    fn round(&mut self, case: Case) -> f64;
}

/// The [`Measure`] of a [`Subject`].
pub struct Runner<S: Subject> {
    subject: S,
    fates: Vec<S::Fate>,
    ranges: Vec<S::Stretch>,
}

impl<S: Subject> Runner<S> {
    /// A runner with its lists to lend.
    pub fn new(subject: S) -> Self {
        Self {
            subject,
            fates: vec![Place::of([0; 2]); BATCH_LINES],
            ranges: vec![Place::of([0; 2]); FRAME_PLACES],
        }
    }

    /// A buffer with frames, spread evenly over its tracks.
    fn filled(&mut self, tracks: u32, frames: usize) -> S::State {
        self.with_frames(tracks, (0..frames).map(|number| frame(tracks, number)))
    }

    /// A buffer with these frames, all of which are kept.
    fn with_frames(&mut self, tracks: u32, frames: impl Iterator<Item = Offered>) -> S::State {
        let mut state = self.subject.create(&kinds(tracks)).expect("a buffer");
        for offered in frames {
            let appended = self.subject.append(&mut state, &offered, &mut self.fates);
            assert_eq!(appended, Ok(0), "a frame that is kept");
        }
        state
    }

    /// The median time of a creation.
    fn create(&mut self, tracks: u32) -> f64 {
        let kinds = kinds(tracks);
        let mut state = self.filled(tracks, 0);
        let mut create = || {
            let start = Instant::now();
            state = self.subject.create(black_box(&kinds)).expect("a buffer");
            black_box(&mut state);
            micros_since(start)
        };
        median((0..CALLS).map(|_| create()).collect())
    }

    /// The median time of a call, each on a copy of the same state.
    fn call(&mut self, call: Call, tracks: u32, frames: usize) -> f64 {
        let mut held = self.filled(tracks, frames);
        if call == Call::AppendOver {
            self.subject.abort(&mut held).expect("an abort");
        }
        let offered = match call {
            Call::AppendOver => Offered {
                flagged: true,
                ..frame(tracks, frames / 2)
            },
            _ => frame(tracks, frames),
        };
        let mut state = held.clone();
        let mut time = || {
            state.clone_from(&held);
            let start = Instant::now();
            let _ = black_box(self.make(call, black_box(&mut state), &offered));
            micros_since(start)
        };
        median((0..CALLS).map(|_| time()).collect())
    }

    fn make(&mut self, call: Call, state: &mut S::State, offered: &Offered) -> Result<usize, u32> {
        let subject = &mut self.subject;
        let done = |()| 0;
        match call {
            Call::AppendLast | Call::AppendOver => subject.append(state, offered, &mut self.fates),
            Call::Remove => subject.remove(state, 0.0, 1.0, &mut self.fates),
            Call::Abort => subject.abort(state).map(done),
            Call::SetMode => subject.set_mode(state, Mode::Sequence).map(done),
            // Half way between two microseconds, so that the tie rule is in the row.
            Call::SetOffset => subject.set_offset(state, 0.0078125).map(done),
            Call::SetWindowStart => subject.set_window_start(state, 0.5).map(done),
            Call::SetWindowEnd => subject.set_window_end(state, 60.0).map(done),
            Call::ReadSettings => subject.read_settings(state).map(|reading| {
                black_box(reading);
                0
            }),
            Call::TrackRanges => subject.track_ranges(state, 1, &mut self.ranges),
            Call::CommonRanges => subject.common_ranges(state, &mut self.ranges),
        }
    }

    /// The survey line: each second of frames appended, the second that has become too old goes.
    fn survey(&mut self) -> f64 {
        let mut state = self.filled(1, 0);
        let start = Instant::now();
        for number in 0..SURVEY {
            let second = number / FRAMES_A_SECOND;
            if number % FRAMES_A_SECOND == 0 && second >= SURVEY_KEPT {
                let end = (second - SURVEY_KEPT + 1) as f64;
                let removed = self.subject.remove(&mut state, 0.0, end, &mut self.fates);
                assert_eq!(removed, Ok(FRAMES_A_SECOND as usize), "a second that goes");
            }
            let offered = frame(1, number as usize);
            let appended = self.subject.append(&mut state, &offered, &mut self.fates);
            assert_eq!(appended, Ok(0), "a frame that is kept");
        }
        micros_since(start) / SURVEY as f64
    }

    /// The median time of appending a batch's frames one way or the other, each time on a copy of the
    /// same state: a full store, of which the oldest frames have gone, as many as are appended.
    fn frames(&mut self, way: Way, tracks: u32) -> f64 {
        let frame = |number| grouped(tracks, number, BATCH_GROUP);
        let mut held = self.with_frames(tracks, (0..FRAME_PLACES).map(frame));
        let end = frame(BATCH_FRAMES).pts as f64 / 1e6;
        let removed = self.subject.remove(&mut held, 0.0, end, &mut self.fates);
        assert_eq!(removed, Ok(BATCH_FRAMES), "the oldest frames that go");
        let frames: Vec<Offered> = (FRAME_PLACES..FRAME_PLACES + BATCH_FRAMES)
            .map(frame)
            .collect();
        let rows: Vec<S::Row> = frames.iter().map(|f| Place::of(row_of(f))).collect();
        let mut state = held.clone();
        let mut time = || {
            state.clone_from(&held);
            let start = Instant::now();
            let kept = match way {
                Way::OneByOne => self.append_each(black_box(&mut state), &frames),
                Way::Batch => self.append_batch(black_box(&mut state), &rows),
            };
            let time = micros_since(start);
            assert_eq!(kept, BATCH_FRAMES, "frames that are kept");
            time
        };
        median((0..CALLS).map(|_| time()).collect())
    }

    /// Appends frames by a call each; gives how many are kept and take nothing out.
    fn append_each(&mut self, state: &mut S::State, frames: &[Offered]) -> usize {
        let mut append = |offered| self.subject.append(state, offered, &mut self.fates);
        frames.iter().filter(|f| append(f) == Ok(0)).count()
    }

    /// Appends frames by one call; gives how many are kept, if they take nothing out.
    fn append_batch(&mut self, state: &mut S::State, rows: &[S::Row]) -> usize {
        let batch = self.subject.append_batch(state, rows, &mut self.fates);
        batch.map_or(0, |batch| batch.accepted - batch.lines)
    }

    /// The median time of a report of a line.
    fn report(&mut self, report: Report, line: Line, places: usize, frames: usize) -> f64 {
        let tracks = match report {
            Report::Track | Report::Walked => 1,
            Report::Common => 2,
        };
        let each = frames / tracks as usize;
        let state = self.with_frames(tracks, line.frames(tracks, each));
        let short = places < line.ranges(each);
        let due = match report {
            Report::Walked => Ok(if short { places + 1 } else { each }),
            _ if short => Err(SHORT_LIST),
            _ => Ok(line.ranges(each)),
        };
        let (subject, list) = (&mut self.subject, &mut self.ranges[..places]);
        let mut time = || {
            let start = Instant::now();
            let said = match report {
                Report::Track => subject.track_ranges(black_box(&state), 1, list),
                Report::Common => subject.common_ranges(black_box(&state), list),
                Report::Walked => subject.walked(black_box(&state), 1, places),
            };
            black_box(&mut *list);
            let time = micros_since(start);
            assert_eq!(said, due, "what is due");
            time
        };
        median((0..CALLS).map(|_| time()).collect())
    }

    /// The median time of a call on a store of groups, each on a copy of the same state.
    fn walk(&mut self, walk: Walk, grouping: Grouping, points: usize, lines: usize) -> f64 {
        let frame = |number| grouped(1, number, points as i64);
        let held = self.in_groups(FRAME_PLACES - 1, frame, grouping);
        let offered = Offered {
            flagged: true,
            ..frame(match walk {
                Walk::Over => 1,
                _ => FRAME_PLACES - 1,
            })
        };
        let mut state = held.clone();
        let (subject, fates) = (&mut self.subject, &mut self.fates);
        let mut time = || {
            state.clone_from(&held);
            let start = Instant::now();
            let said = match walk {
                Walk::After | Walk::Over => subject.append(black_box(&mut state), &offered, fates),
                Walk::Remove => subject.remove(black_box(&mut state), 0.0, 1.0, fates),
            };
            black_box(&mut *fates);
            let time = micros_since(start);
            assert_eq!(said, Ok(lines), "frames that go");
            time
        };
        median((0..CALLS).map(|_| time()).collect())
    }

    /// The median time of a seek into the last frame of a store of groups.
    fn seek(&mut self, grouping: Grouping, points: usize, frames: usize, count: usize) -> f64 {
        let frame = |number| grouped(1, number, points as i64);
        let state = self.in_groups(frames, frame, grouping);
        let instant = frame(frames - 1).pts + i64::from(FRAME / 2);
        let subject = &mut self.subject;
        let mut time = || {
            let start = Instant::now();
            let said = black_box(subject.seek(black_box(&state), 1, instant));
            let time = micros_since(start);
            let told = said.map(|start| (start.target as usize, start.count));
            assert_eq!(told, Ok((frames, count)), "where to start");
            time
        };
        median((0..CALLS).map(|_| time()).collect())
    }

    /// A buffer of one track with so many frames of some groups, to which nothing was appended since.
    fn in_groups(
        &mut self,
        frames: usize,
        frame: impl Fn(usize) -> Offered,
        grouping: Grouping,
    ) -> S::State {
        let mut state = self.with_frames(1, (0..frames).map(frame));
        self.subject.abort(&mut state).expect("an abort");
        let groups = (0..frames).map(|place| {
            let group = FrameField::Group(grouping.group(place).into());
            Poke::Frame(place, group)
        });
        // At or above all of them, and not the last.
        let current = Poke::Group(i64::from(u32::MAX) - 1);
        for poke in groups.chain([current]) {
            self.subject.poke(&mut state, &poke).expect("a group");
        }
        state
    }

    /// The median time of listing a segment, into a list that has its places to spare.
    fn segment(&mut self, frames: u32) -> f64 {
        let segment = segment(frames);
        let mut list: Vec<S::Row> = vec![Place::of([0; 6]); frames as usize + 1];
        let mut time = || {
            let start = Instant::now();
            let listed = self
                .subject
                .list_segment(TRACK, black_box(&segment), &mut list);
            black_box(&mut list);
            let time = micros_since(start);
            assert_eq!(listed, Ok(frames as usize), "frames that are listed");
            time
        };
        median((0..CALLS).map(|_| time()).collect())
    }

    /// The median time of listing a segment with much media data, all its lumps together.
    fn heavy(&mut self, coming: Coming) -> f64 {
        let segment = heavy_segment(HEAVY_FRAMES, HEAVY_BYTES);
        let mut list: Vec<S::Row> = vec![Place::of([0; 6]); HEAVY_FRAMES as usize + 1];
        let mut buffer = vec![0; LUMP_BYTES];
        let mut time = || {
            let (segment, list) = (black_box(&segment), &mut list);
            let start = Instant::now();
            let listed = match coming {
                Coming::Whole => self.subject.list_segment(TRACK, segment, list),
                Coming::InLumps(length) => {
                    self.take_lumps(segment.chunks(length), &mut buffer, list)
                }
            };
            black_box(list);
            let time = micros_since(start);
            assert_eq!(listed, Ok(HEAVY_FRAMES as usize), "frames that are listed");
            time
        };
        median((0..HEAVY_SEGMENTS).map(|_| time()).collect())
    }

    /// Takes lumps, the end with the last of them.
    fn take_lumps(
        &mut self,
        mut lumps: Chunks<u8>,
        buffer: &mut [u8],
        list: &mut [S::Row],
    ) -> Result<usize, u32> {
        let mut reader = S::Reader::default();
        let last = lumps.next_back().unwrap_or_default();
        for lump in lumps {
            self.subject
                .take_lump(&mut reader, TRACK, buffer, lump, false, list)?;
        }
        self.subject
            .take_lump(&mut reader, TRACK, buffer, last, true, list)
    }
}

impl<S: Subject> Measure for Runner<S> {
    fn round(&mut self, case: Case) -> f64 {
        match case {
            Case::Create(tracks) => self.create(tracks),
            Case::Call(call, tracks, frames) => self.call(call, tracks, frames),
            Case::Survey => self.survey(),
            Case::Segment(frames) => self.segment(frames),
            Case::Heavy(coming) => self.heavy(coming),
            Case::Frames(way, tracks) => self.frames(way, tracks),
            Case::Report(report, line, places, frames) => self.report(report, line, places, frames),
            Case::Walk(walk, grouping, points, lines) => self.walk(walk, grouping, points, lines),
            Case::Seek(grouping, points, frames, count) => {
                self.seek(grouping, points, frames, count)
            }
        }
    }
}

/// Video and audio by turns.
fn kinds(tracks: u32) -> Vec<u32> {
    (0..tracks).map(|track| track % 2).collect()
}

/// The n-th frame, from 0, of a buffer whose tracks take turns.
fn frame(tracks: u32, number: usize) -> Offered {
    grouped(tracks, number, FRAMES_A_SECOND)
}

/// The same, with a random access point each so many frames of a track.
fn grouped(tracks: u32, number: usize, group: i64) -> Offered {
    let (turn, place) = (number as u32 % tracks, number as i64 / i64::from(tracks));
    let time = place * i64::from(FRAME);
    Offered {
        track: turn + 1,
        pts: time,
        dts: time,
        duration: FRAME,
        flagged: place % group == 0,
    }
}

fn micros_since(start: Instant) -> f64 {
    start.elapsed().as_secs_f64() * 1e6
}

/// The middle one.
pub fn median(mut numbers: Vec<f64>) -> f64 {
    numbers.sort_by(f64::total_cmp);
    numbers[numbers.len() / 2]
}
