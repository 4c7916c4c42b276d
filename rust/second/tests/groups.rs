//! Document 02, No. 4: the group number, and the walk of step 8 through frames of one group.

use second::{
    abort, append, create, remove, set_mode, set_offset, set_window_end, well_formed, Cause, Fate,
    Frame, Mode, Offered, State, FRAME_PLACES,
};

/// A buffer of some video tracks with a lent list.
struct Buffer {
    state: State,
    fates: Vec<Fate>,
}

impl Buffer {
    fn new(tracks: usize) -> Self {
        Self {
            state: create(&vec![0; tracks]).expect("some tracks"),
            fates: vec![[0; 2]; FRAME_PLACES],
        }
    }

    /// Appends a frame of 100 microseconds.
    fn frame(&mut self, track: u32, pts: i64, dts: i64, flagged: bool) -> Vec<Fate> {
        let offered = Offered {
            track,
            pts,
            dts,
            duration: 100,
            flagged,
        };
        let count = append(&mut self.state, &offered, &mut self.fates).expect("accepted");
        self.fates[..count].to_vec()
    }

    /// R: a flagged frame of track 1.
    fn r(&mut self, pts: i64, dts: i64) -> Vec<Fate> {
        self.frame(1, pts, dts, true)
    }

    /// P: a frame of track 1 without the flag.
    fn p(&mut self, pts: i64, dts: i64) -> Vec<Fate> {
        self.frame(1, pts, dts, false)
    }

    fn abort(&mut self) {
        abort(&mut self.state).expect("abort");
    }

    fn remove(&mut self, start: f64, end: f64) -> Vec<Fate> {
        let count = remove(&mut self.state, start, end, &mut self.fates).expect("removed");
        self.fates[..count].to_vec()
    }

    /// The frames stored by number, each with its group, in store order.
    fn groups(&self) -> Vec<(u32, u32)> {
        let stored = &self.state.frames[..self.state.frame_count];
        stored
            .iter()
            .map(|frame| (frame.number, frame.group))
            .collect()
    }
}

#[test]
fn the_request_s_example() {
    let mut buffer = Buffer::new(1);
    buffer.r(0, 0);
    buffer.p(400, 150);
    buffer.abort();
    buffer.r(200, 100);
    buffer.p(300, 200);
    assert_eq!(buffer.p(400, 250), [[2, 4]]);
    assert_eq!(buffer.groups(), [(1, 0), (3, 1), (4, 1), (5, 1)]);
}

/// Frames 1 and 2 of group 0; 3, a point, 4 and 5, a point, of group 1. Store order 1, 3, 2, 4, 5.
fn two_groups() -> Buffer {
    let mut buffer = Buffer::new(1);
    buffer.r(0, 0);
    buffer.p(500, 150);
    buffer.abort();
    buffer.r(100, 50);
    buffer.p(200, 200);
    buffer.r(300, 250);
    assert_eq!(
        buffer.groups(),
        [(1, 0), (3, 1), (2, 0), (4, 1), (5, 1)],
        "two groups among each other"
    );
    buffer
}

#[test]
fn a_removal_s_walk_goes_past_a_point_of_another_group() {
    assert_eq!(two_groups().remove(0.0, 0.00005), [[1, 6], [2, 5]]);
}

#[test]
fn a_removal_s_walk_is_not_carried_by_another_group() {
    assert_eq!(two_groups().remove(0.00005, 0.00015), [[3, 6], [4, 6]]);
}

#[test]
fn an_append_s_walk_goes_past_a_point_of_another_group() {
    let mut buffer = two_groups();
    buffer.abort();
    assert_eq!(buffer.r(0, 0), [[1, 4], [2, 5]]);
    assert_eq!(buffer.groups(), [(6, 2), (3, 1), (4, 1), (5, 1)]);
}

#[test]
fn a_group_on_another_track_is_not_walked_through() {
    let mut buffer = Buffer::new(2);
    buffer.r(0, 0);
    buffer.frame(2, 0, 0, true);
    buffer.p(100, 100);
    buffer.frame(2, 100, 100, false);
    buffer.abort();
    assert_eq!(buffer.r(0, 0), [[1, 4], [3, 5]]);
    assert_eq!(buffer.groups(), [(5, 1), (2, 0), (4, 0)]);
}

/// The group number after something was done to a buffer with one frame, from 0.
fn after(mode: Mode, act: impl FnOnce(&mut Buffer)) -> u32 {
    let mut buffer = Buffer::new(2);
    set_mode(&mut buffer.state, mode).expect("mode");
    buffer.r(0, 0);
    assert_eq!(buffer.state.head.group, 0);
    act(&mut buffer);
    assert_eq!(well_formed(&buffer.state), Ok(()));
    buffer.state.head.group
}

#[test]
fn the_number_rises_when_the_three_are_unset() {
    for mode in [Mode::Segments, Mode::Sequence] {
        let after = |act: fn(&mut Buffer)| after(mode, act);
        let broken = after(|buffer| assert!(buffer.r(500, 500).is_empty()));
        let dropped = after(|buffer| assert_eq!(buffer.p(500, 500), [[2, 3]]));
        let aborted = after(|buffer| (0..3).for_each(|_| buffer.abort()));
        let removed = after(|buffer| assert_eq!(buffer.remove(0.0, 1.0), [[1, 6]]));
        assert_eq!([broken, dropped, aborted, removed], [1, 1, 3, 1]);
    }
    let mut fresh = Buffer::new(1);
    fresh.abort();
    assert_eq!(fresh.state.head.group, 1, "nothing was set");
}

#[test]
fn nothing_else_raises_it() {
    let unmoved: [fn(&mut Buffer); 5] = [
        |buffer| {
            buffer.p(100, 100);
        },
        |buffer| {
            set_mode(&mut buffer.state, Mode::Sequence).expect("mode");
            assert!(buffer.r(7000, 7000).is_empty(), "placed at the group end");
        },
        |buffer| {
            set_mode(&mut buffer.state, Mode::Sequence).expect("mode");
            set_offset(&mut buffer.state, 0.0001).expect("offset");
            assert!(buffer.r(0, 0).is_empty(), "placed at the offset");
        },
        |buffer| {
            set_window_end(&mut buffer.state, 0.0001).expect("window end");
            assert_eq!(buffer.p(100, 100), [[2, 2]]);
        },
        |buffer| assert!(buffer.remove(0.0005, 1.0).is_empty()),
    ];
    for act in unmoved {
        assert_eq!(after(Mode::Segments, act), 0);
    }
}

#[test]
fn the_last_group_is_used() {
    let mut buffer = Buffer::new(1);
    buffer.state.head.group = u32::MAX - 1;
    buffer.r(0, 0);
    buffer.r(500, 500);
    buffer.p(600, 600);
    let last = u32::MAX;
    assert_eq!(buffer.groups(), [(1, last - 1), (2, last), (3, last)]);
}

/// Numbers from a linear congruence: enough to vary a test.
struct Numbers(u64);

impl Numbers {
    fn below(&mut self, bound: u64) -> u64 {
        self.0 = self
            .0
            .wrapping_mul(6_364_136_223_846_793_005)
            .wrapping_add(1);
        (self.0 >> 33) % bound
    }
}

/// A state with frames of some groups anywhere, not one that calls would have left.
fn scattered(numbers: &mut Numbers) -> State {
    let tracks = 1 + numbers.below(2) as u32;
    let mut state = create(&vec![0; tracks as usize]).expect("some tracks");
    let groups = 1 + numbers.below(5);
    let stride = [1, 7, 1 << 20][numbers.below(3) as usize];
    let count = numbers.below(40) as usize;
    let mut frames: Vec<Frame> = (1..=count as u32)
        .map(|number| Frame {
            track: 1 + numbers.below(u64::from(tracks)) as u32,
            number,
            pts: numbers.below(400) as i64,
            dts: numbers.below(400) as i64,
            duration: 1 + numbers.below(30) as u32,
            flagged: numbers.below(3) == 0,
            group: numbers.below(groups) as u32 * stride,
        })
        .collect();
    frames.sort_by_key(|frame| (frame.track, frame.dts, frame.number));
    state.frames[..count].copy_from_slice(&frames);
    state.frame_count = count;
    state.head.last_number = count as u32;
    state.head.group = 1 << 23;
    state
}

/// The lines in the request's words, where some frames are taken by a cause: a frame goes by cause 5
/// only through a taken frame of its own group, with no untaken flagged frame of that group between.
fn lines(stored: &[Frame], taken: impl Fn(&Frame) -> bool, cause: Cause) -> Vec<Fate> {
    let mut causes: Vec<u32> = Vec::new();
    for (place, frame) in stored.iter().enumerate() {
        let own =
            |other: usize| (stored[other].track, stored[other].group) == (frame.track, frame.group);
        let stops = |other: usize| own(other) && causes[other] == 0 && stored[other].flagged;
        let through = |other: usize| own(other) && causes[other] != 0 && !(other..place).any(stops);
        let goes = match taken(frame) {
            true => cause as u32,
            false if !frame.flagged && (0..place).any(through) => Cause::Follows as u32,
            false => 0,
        };
        causes.push(goes);
    }
    let gone = stored.iter().zip(causes).filter(|(_, cause)| *cause != 0);
    gone.map(|(frame, cause)| [frame.number, cause]).collect()
}

#[test]
fn every_walk_is_the_request_s() {
    let mut numbers = Numbers(4);
    let mut followed = 0;
    for _ in 0..20_000 {
        let state = scattered(&mut numbers);
        let stored = &state.frames[..state.frame_count];
        let mut fates = [[0; 2]; FRAME_PLACES];
        let time = numbers.below(400) as i64;

        // Highest end is unset: what begins within the new frame goes.
        let offered = Offered {
            track: 1,
            pts: time,
            dts: numbers.below(400) as i64,
            duration: 1 + numbers.below(60) as u32,
            flagged: true,
        };
        let end = time + i64::from(offered.duration);
        let taken = |frame: &Frame| frame.track == 1 && (time..end).contains(&frame.pts);
        let wanted = lines(stored, taken, Cause::Overlapped);
        let mut after = state;
        let count = append(&mut after, &offered, &mut fates).expect("accepted");
        assert_eq!(fates[..count], wanted);
        assert_eq!(after.frame_count, stored.len() - count + 1);

        let edge = |track: u32| {
            let points = stored.iter().filter(|f| f.track == track && f.flagged);
            points.map(|f| f.pts).filter(|pts| *pts > time).min()
        };
        let taken = |frame: &Frame| {
            frame.pts >= time && edge(frame.track).is_none_or(|edge| frame.pts < edge)
        };
        let wanted = lines(stored, taken, Cause::Removed);
        let (start, end) = (time as f64 / 1e6, (time + 1) as f64 / 1e6);
        let mut after = state;
        let count = remove(&mut after, start, end, &mut fates).expect("removed");
        assert_eq!(fates[..count], wanted);
        assert_eq!(after.frame_count, stored.len() - count);
        followed += wanted.iter().filter(|[_, cause]| *cause == 5).count();
    }
    assert!(followed > 0);
}
