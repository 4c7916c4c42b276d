//! The paper's soundings A to L, with the paper's numbers; K has those of document 02, No. 7.

use second::{
    abort, append, create, micros, read_settings, remove, set_mode, set_offset, set_window_end,
    set_window_start, track_ranges, Fate, Maybe, Mode, Offered, Refusal, State, Stretch,
    FRAME_PLACES,
};

const VIDEO: u32 = 0;

/// The fate list of an append that keeps everything.
const STORED: [Fate; 0] = [];

/// One video track and a lent list, as all soundings have.
struct Buffer {
    state: State,
    fates: Vec<Fate>,
}

impl Buffer {
    fn new() -> Self {
        Self {
            state: create(&[VIDEO]).expect("one video track"),
            fates: vec![[0; 2]; FRAME_PLACES],
        }
    }

    fn offer(&mut self, offered: Offered) -> Result<Vec<Fate>, Refusal> {
        let count = append(&mut self.state, &offered, &mut self.fates)?;
        Ok(self.fates[..count].to_vec())
    }

    fn frame(&mut self, pts: i64, dts: i64, flagged: bool) -> Vec<Fate> {
        let offered = Offered {
            track: 1,
            pts,
            dts,
            duration: 100,
            flagged,
        };
        self.offer(offered).expect("accepted")
    }

    /// R: a flagged frame, both times equal.
    fn r(&mut self, time: i64) -> Vec<Fate> {
        self.frame(time, time, true)
    }

    /// P: a frame without the flag, both times equal.
    fn p(&mut self, time: i64) -> Vec<Fate> {
        self.frame(time, time, false)
    }

    fn remove(&mut self, start: f64, end: f64) -> Vec<Fate> {
        let count = remove(&mut self.state, start, end, &mut self.fates).expect("removed");
        self.fates[..count].to_vec()
    }

    fn ranges(&self) -> Vec<Stretch> {
        let mut list = [[0; 2]; FRAME_PLACES];
        let count = track_ranges(&self.state, 1, &mut list).expect("ranges");
        list[..count].to_vec()
    }

    fn order(&self) -> Vec<u32> {
        let stored = &self.state.frames[..self.state.frame_count];
        stored.iter().map(|frame| frame.number).collect()
    }

    fn three(&self) -> [Maybe; 3] {
        let track = self.state.head.tracks[0];
        [track.last_decode, track.last_duration, track.highest_end]
    }
}

fn case_a() -> Buffer {
    let mut buffer = Buffer::new();
    assert_eq!(buffer.r(0), STORED);
    assert_eq!(buffer.p(100), STORED);
    buffer
}

/// The first four frames of case E.
fn four_of_e() -> Buffer {
    let mut buffer = Buffer::new();
    buffer.r(0);
    buffer.p(100);
    buffer.p(200);
    buffer.r(300);
    buffer
}

#[test]
fn a() {
    assert_eq!(case_a().ranges(), [[0, 200]]);
}

#[test]
fn b() {
    let mut buffer = case_a();
    assert_eq!(buffer.frame(400, 300, false), STORED);
    assert_eq!(buffer.ranges(), [[0, 200], [400, 500]]);
}

#[test]
fn c() {
    let mut buffer = case_a();
    assert_eq!(buffer.frame(400, 301, false), [[3, 3]]);
    assert_eq!(buffer.state.head.group_end, 400);
}

#[test]
fn d() {
    let mut buffer = Buffer::new();
    buffer.r(0);
    buffer.p(101);
    assert_eq!(buffer.ranges(), [[0, 100], [101, 201]]);
}

#[test]
fn e() {
    let mut buffer = four_of_e();
    abort(&mut buffer.state).expect("abort");
    assert_eq!(buffer.r(100), [[2, 4], [3, 5]]);
    assert_eq!(buffer.order(), [1, 5, 4]);
    assert_eq!(buffer.ranges(), [[0, 200], [300, 400]]);
}

#[test]
fn f() {
    let mut buffer = Buffer::new();
    buffer.r(0);
    abort(&mut buffer.state).expect("abort");
    assert_eq!(buffer.frame(200, 0, true), STORED);
    assert_eq!(buffer.frame(0, 100, false), STORED);
    assert_eq!(buffer.order(), [1, 2, 3]);
    assert_eq!(buffer.ranges(), [[0, 100], [200, 300]]);
}

#[test]
fn g() {
    let mut buffer = Buffer::new();
    set_mode(&mut buffer.state, Mode::Sequence).expect("mode");
    let times = |buffer: &Buffer, place: usize| {
        let frame = buffer.state.frames[place];
        (frame.pts, frame.dts)
    };
    assert_eq!(buffer.frame(5000, 4900, true), STORED);
    assert_eq!(times(&buffer, 0), (0, -100));
    assert_eq!(buffer.frame(9000, 8900, true), STORED);
    assert_eq!(times(&buffer, 1), (100, 0));
    assert_eq!(buffer.state.head.settings.offset.micros, -8900);
    assert_eq!(buffer.ranges(), [[0, 200]]);
}

#[test]
fn h() {
    let mut buffer = four_of_e();
    assert_eq!(buffer.remove(0.00015, 0.00025), [[3, 6]]);
    assert_eq!(buffer.ranges(), [[0, 200], [300, 400]]);
}

#[test]
fn i() {
    let mut buffer = four_of_e();
    assert_eq!(buffer.remove(0.00015, 0.00035), [[3, 6], [4, 6]]);
    assert_eq!(buffer.state.head.group_end, 300);
    assert_eq!(buffer.three(), [Maybe::UNSET; 3]);
}

#[test]
fn j() {
    let mut buffer = Buffer::new();
    set_window_start(&mut buffer.state, 0.00005).expect("window start");
    set_window_end(&mut buffer.state, 0.00015).expect("window end");
    assert_eq!(buffer.r(49), [[1, 1]]);
    assert_eq!(buffer.r(50), STORED);
    assert_eq!(buffer.r(51), [[3, 2]]);
}

#[test]
fn k() {
    assert_eq!(micros(0.0078125), Some(7813));
    assert_eq!(micros(0.0234375), Some(23438));
    assert_eq!(micros(-0.0078125), Some(-7812));
    assert_eq!(micros(-0.0234375), Some(-23437));
    assert_eq!(micros(f64::from_bits(1)), Some(0));
    assert_eq!(micros(1_000_000.0), Some(1_000_000_000_000));
}

#[test]
fn l_seconds_above_the_limit() {
    let mut buffer = Buffer::new();
    let before = buffer.state;
    let above = 1_000_000_f64.next_up();
    assert_eq!(set_offset(&mut buffer.state, above), Err(Refusal::Seconds));
    assert_eq!(Refusal::Seconds.number(), 5);
    assert_eq!(buffer.state, before);
    assert_eq!(read_settings(&buffer.state).map(|r| r.offset), Ok(0.0));
}

#[test]
fn l_durations() {
    let mut buffer = Buffer::new();
    let of = |duration| Offered {
        track: 1,
        pts: 0,
        dts: 0,
        duration,
        flagged: true,
    };
    assert_eq!(buffer.offer(of(0)), Err(Refusal::OfferedLimits));
    assert_eq!(Refusal::OfferedLimits.number(), 4);
    assert_eq!(buffer.offer(of(10_000_000)), Ok(vec![]));
}

#[test]
fn l_full_store() {
    let mut buffer = Buffer::new();
    for place in 0..1024 {
        assert_eq!(buffer.r(100 * place), STORED);
    }
    let full = buffer.state;
    let after_the_last = Offered {
        track: 1,
        pts: 102_400,
        dts: 102_400,
        duration: 100,
        flagged: true,
    };
    assert_eq!(buffer.offer(after_the_last), Err(Refusal::Full));
    assert_eq!(Refusal::Full.number(), 8);
    assert_eq!(buffer.state, full);

    abort(&mut buffer.state).expect("abort");
    assert_eq!(buffer.r(51_200), [[513, 4]]);
    assert_eq!(buffer.state.frame_count, 1024);
    assert_eq!(buffer.ranges(), [[0, 102_400]]);
}
