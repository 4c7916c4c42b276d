//! Writing the calls of a script, with just enough memory to write calls that mean something.

use script::digits;
use second::{quotient, LONGEST_DURATION, RESULT_LIMIT, SECONDS_LIMIT, TRACK_PLACES};

use crate::halves::Half;
use crate::rng::Rng;
use crate::segments;

/// Durations around the usual 100.
const DURATIONS: [u32; 9] = [100, 100, 100, 100, 1, 50, 99, 101, 400];

/// No track, but track 1 to whoever cuts its number to a byte.
pub(crate) const PAST_A_BYTE: u32 = 257;

/// Instants that are not among the first few: at the limits, and where only a cut number is among them.
const FAR: [i64; 8] = [
    i64::MIN,
    i64::MIN,
    i64::MAX,
    i64::MAX,
    RESULT_LIMIT - 1,
    RESULT_LIMIT,
    (1 << 32) + 50,
    50 - (1 << 32),
];

/// Bad frames, refused 3 or 4.
const BAD: [&str; 8] = [
    "append 0 0 0 100 1",
    "append 5 0 0 100 1",
    "append 257 0 0 100 0",
    "append 4294967295 0 0 100 1",
    "append 1 0 0 0 1",
    "append 1 0 0 10000001 1",
    "append 1 1000000000001 0 100 1",
    "append 1 0 -9223372036854775808 100 0",
];

/// A script being written.
pub(crate) struct Writer {
    pub(crate) rng: Rng,
    /// The calls so far. A batch has the lines of its frames with it.
    pub(crate) calls: Vec<String>,
    /// The buffer's tracks, as last created.
    pub(crate) tracks: u32,
    /// The last decode time offered on each track, and its duration.
    last: [(i64, i64); TRACK_PLACES],
    /// The frames offered: track, presentation time and duration.
    offered: Vec<(u32, i64, i64)>,
}

impl Writer {
    pub(crate) fn new(seed: u64) -> Self {
        Self {
            rng: Rng::new(seed),
            calls: Vec::new(),
            tracks: 0,
            last: [(0, 0); TRACK_PLACES],
            offered: Vec::new(),
        }
    }

    pub(crate) fn line(&mut self, line: impl Into<String>) {
        self.calls.push(line.into());
    }

    /// A batch of the frames that `write` appends.
    pub(crate) fn batch(&mut self, words: &str, write: impl FnOnce(&mut Self)) {
        let start = self.calls.len();
        write(self);
        let appends = self.calls.drain(start..);
        let frames: Vec<String> = appends.filter_map(|call| frame_of(&call)).collect();
        self.calls.push(batch(&frames, words));
    }

    /// The words for the fate list of a batch that is not to be refused.
    pub(crate) fn lines_enough(&mut self) -> &'static str {
        self.rng
            .pick(&["", "", "", " fates=1088", " fates=1089", " fates=3000"])
    }

    /// A batch of any size, with lines enough or not.
    pub(crate) fn batch_of_any_size(&mut self) {
        let frames = self.rng.pick(&[0, 0, 0, 1, 2, 63, 64, 65, 65, 66, 200]);
        let words = self.rng.pick(&[
            "",
            "",
            "",
            " fates=0",
            " fates=1",
            " fates=64",
            " fates=1023",
            " fates=1024",
            " fates=1086",
            " fates=1087",
            " fates=1087",
            " fates=1088",
            " fates=4096",
        ]);
        self.batch(words, |writer| {
            for _ in 0..frames {
                writer.append_on();
            }
        });
    }

    /// A batch of frames that are not shown in the order in which they are decoded, as a segment has
    /// them: on one track, or on all of them by turns. Now and then one of them is bad.
    pub(crate) fn batch_of_a_segment(&mut self) {
        let start = match self.rng.percent(40) {
            true => self.last[0].0 + self.last[0].1,
            false => self.instant(),
        };
        let tracks = match self.rng.percent(60) {
            true => vec![self.track()],
            false => (1..=self.tracks).collect(),
        };
        let frames = self.rng.pick(&[1, 4, 8, 12, 25, 60, 64]);
        let group = self.rng.pick(&[1, 4, 8, 100]);
        let bad = self.rng.pick(&[-1, -1, -1, 0, 1, 3, 7, 40]);
        let words = self.lines_enough();
        self.batch(words, |writer| {
            for number in 0..frames {
                if number == bad {
                    let bad = writer.rng.pick(&BAD);
                    writer.line(bad);
                    continue;
                }
                let (turn, place) = (number as usize % tracks.len(), number / tracks.len() as i64);
                let (pts, dts) = (start + 100 * shown(place), start + 100 * place);
                writer.append(tracks[turn], pts, dts, 100, place % group == 0);
            }
        });
    }

    /// Frames of a track that are not shown in the order in which they are decoded. Some are too
    /// short to reach the next, some reach into it, and some are there twice.
    pub(crate) fn line_in_another_order(&mut self) {
        let (track, start) = (self.track(), self.instant().abs());
        for place in 0..self.rng.pick(&[4, 4, 8, 12, 25]) {
            let (pts, dts) = (start + 100 * shown(place), start + 100 * place);
            let times = self.rng.pick(&[1, 1, 1, 2, 3]);
            for _ in 0..times {
                let duration = self.rng.pick(&[100, 100, 99, 50, 150, 250]);
                self.append(track, pts, dts, duration, place == 0);
            }
        }
    }

    /// Frames of a track that are shown at one time, decoded one after the other.
    pub(crate) fn frames_of_one_time(&mut self) {
        let (track, time) = (self.track(), self.instant().abs());
        for place in 0..self.rng.between(2, 4) {
            let duration = self.rng.pick(&DURATIONS);
            let flagged = place == 0 || self.rng.percent(30);
            self.append(track, time, time + place, duration, flagged);
        }
    }

    /// Joins appends that follow each other to batches.
    pub(crate) fn join_appends(&mut self) {
        let mut calls = std::mem::take(&mut self.calls).into_iter().peekable();
        while let Some(call) = calls.next() {
            let first = frame_of(&call).filter(|_| self.rng.percent(80));
            let Some(first) = first else {
                self.calls.push(call);
                continue;
            };
            let most = self.rng.pick(&[1, 2, 3, 4, 8, 20, 64, 64]);
            let mut frames = vec![first];
            while frames.len() < most {
                let Some(frame) = calls.peek().and_then(|call| frame_of(call)) else {
                    break;
                };
                frames.push(frame);
                calls.next();
            }
            let words = self.lines_enough();
            self.calls.push(batch(&frames, words));
        }
    }

    /// A buffer of so many tracks, of either kind.
    pub(crate) fn create(&mut self, tracks: u32) {
        let mut line = "create".to_string();
        for _ in 0..tracks {
            line.push_str(self.rng.pick(&[" 0", " 1"]));
        }
        self.line(line);
        self.tracks = tracks;
        self.last = [(0, 0); TRACK_PLACES];
        self.offered.clear();
    }

    /// A buffer of some tracks, mostly few.
    pub(crate) fn create_some(&mut self) {
        let tracks = self.rng.pick(&[1, 1, 1, 2, 2, 3, 4]);
        self.create(tracks);
    }

    /// One of the buffer's tracks.
    pub(crate) fn track(&mut self) -> u32 {
        self.rng.between(1, i64::from(self.tracks)) as u32
    }

    pub(crate) fn append(&mut self, track: u32, pts: i64, dts: i64, duration: u32, flagged: bool) {
        let flag = u8::from(flagged);
        self.line(format!("append {track} {pts} {dts} {duration} {flag}"));
        let duration = i64::from(duration);
        if let Some(last) = self.last.get_mut(track as usize - 1) {
            *last = (dts, duration);
        }
        self.offered.push((track, pts, duration));
    }

    /// A frame at or near where the track's decode time goes on, with the steps that are nearly
    /// a break and those that just are one.
    pub(crate) fn append_on(&mut self) {
        let track = self.track();
        let (dts, duration) = self.last[track as usize - 1];
        let dts = match self.rng.between(1, 100) {
            1..=55 => dts + duration,
            56..=64 => dts,
            65..=74 => dts + 2 * duration,
            75..=80 => dts + 2 * duration + 1,
            81..=86 => dts - 1,
            _ => self.instant(),
        };
        let pts = dts + self.rng.pick(&[0, 0, 0, 0, 0, 100, 200, 1, -1, -100, -250]);
        let duration = self.rng.pick(&DURATIONS);
        let flagged = self.rng.percent(45);
        self.append(track, pts, dts, duration, flagged);
    }

    /// A frame anywhere among the first few.
    pub(crate) fn append_anywhere(&mut self) {
        let (track, pts) = (self.track(), self.instant());
        let dts = match self.rng.percent(70) {
            true => pts,
            false => self.instant(),
        };
        let duration = self.rng.pick(&DURATIONS);
        let flagged = self.rng.percent(60);
        self.append(track, pts, dts, duration, flagged);
    }

    /// An instant on or beside a coarse grid, so that instants meet often.
    pub(crate) fn instant(&mut self) -> i64 {
        self.rng.between(-2, 18) * 50 + self.rng.pick(&[0, 0, 0, 1, -1])
    }

    pub(crate) fn remove(&mut self) {
        let start = match self.rng.percent(25) {
            true => 0,
            false => self.instant().abs(),
        };
        let end = start + self.rng.pick(&[1, 1, 50, 100, 100, 200, 500, 0, -1]);
        let start = self.near(start);
        let end = match self.rng.percent(15) {
            true => "inf".to_string(),
            false => self.near(end),
        };
        self.line(format!("remove {start} {end}"));
    }

    pub(crate) fn mode(&mut self) {
        let mode = self.rng.pick(&["segments", "sequence"]);
        self.line(format!("mode {mode}"));
    }

    /// A setter with a time among the first few, or one that is no plain time.
    pub(crate) fn setter(&mut self) {
        let name = self.rng.pick(&["offset", "window-start", "window-end"]);
        let time = match (name, self.rng.percent(15)) {
            (_, true) => self.special(),
            ("offset", _) => self.small_offset(),
            ("window-end", _) if self.rng.percent(30) => "inf".to_string(),
            ("window-end", _) => {
                let end = self.instant() + 400;
                self.near(end)
            }
            _ => {
                let start = self.rng.pick(&[0, 0, 49, 50, 100, 101, 300]);
                self.near(start)
            }
        };
        self.line(format!("{name} {time}"));
    }

    pub(crate) fn small_offset(&mut self) -> String {
        let offset = self.rng.pick(&[0, 0, 1, -1, 50, 100, -100, 300, 1000]);
        self.near(offset)
    }

    pub(crate) fn report(&mut self) {
        match self.rng.between(1, 100) {
            1..=20 => return self.walk(),
            21..=45 => return self.seek(),
            _ => {}
        }
        let mut line = match self.rng.percent(60) {
            true => format!("ranges {}", self.track()),
            false => "common".to_string(),
        };
        if self.rng.percent(15) {
            let places = self.rng.pick(&[0, 1, 2, 3, 1024]);
            line.push_str(&format!(" places={places}"));
        }
        self.line(line);
    }

    /// How far a track's report comes, into few places or into many.
    pub(crate) fn walk(&mut self) {
        let track = self.track();
        let places = self.rng.pick(&[
            "",
            "",
            " places=0",
            " places=1",
            " places=1",
            " places=2",
            " places=3",
            " places=1024",
        ]);
        self.line(format!("walked {track}{places}"));
    }

    /// Where to start decoding, mostly for an instant in a frame that was offered, or at its end.
    pub(crate) fn seek(&mut self) {
        let (track, instant) = match self.rng.between(1, 20) {
            1..=14 if !self.offered.is_empty() => {
                let (track, pts, duration) = self.rng.pick(&self.offered);
                let edges = [0, 0, duration / 2, duration - 1, duration, -1];
                (track, pts + self.rng.pick(&edges))
            }
            15..=16 => (self.track(), self.rng.pick(&FAR)),
            17 => {
                let unknown = [0, self.tracks + 1, PAST_A_BYTE, u32::MAX];
                (self.rng.pick(&unknown), self.instant())
            }
            _ => (self.track(), self.instant()),
        };
        self.line(format!("seek {track} {instant}"));
    }

    /// What to feed of a few bytes.
    pub(crate) fn feed(&mut self) {
        let [initialization, segment] = [(); 2].map(|()| self.bytes());
        let [start, end] = [(); 2].map(|()| self.place(segment.len() as u64));
        let of = self.rng.pick(&["init", "segment", "segment", "segment"]);
        let [initialization, segment] = [initialization, segment].map(|bytes| digits(&bytes));
        self.line(format!(
            "feed {of} {start} {end} {initialization} {segment}"
        ));
    }

    fn bytes(&mut self) -> Vec<u8> {
        let count = self.rng.pick(&[0, 1, 2, 3, 8, 20]);
        (0..count).map(|_| self.rng.next() as u8).collect()
    }

    /// A place in a segment of so many bytes, at its end, beyond, or where only its last 32 bits are in
    /// the segment.
    fn place(&mut self, length: u64) -> u64 {
        let within = self.rng.between(0, length as i64) as u64;
        match self.rng.between(1, 10) {
            1..=6 => within,
            7 => length,
            8 => length + self.rng.pick(&[1, 1, 2, 20]),
            9 => (1 << 32) + within,
            _ => u64::MAX,
        }
    }

    /// A segment, well-made or damaged, whole and in two lumps.
    pub(crate) fn segment(&mut self) {
        let segment = segments::any(&mut self.rng);
        self.line(segment.line());
        self.line("lump-fresh");
        for line in segment.lump_lines() {
            self.line(line);
        }
    }

    /// Any call, mostly appends.
    pub(crate) fn any_call(&mut self) {
        match self.rng.between(1, 100) {
            1..=45 => self.append_on(),
            46..=60 => self.append_anywhere(),
            61..=68 => self.remove(),
            69..=73 => self.line("abort"),
            74..=77 => self.mode(),
            78..=85 => self.setter(),
            86..=87 => self.line("settings"),
            88..=96 => self.report(),
            97 => self.line("save"),
            98 => self.line("restore"),
            99 if self.rng.percent(50) => self.segment(),
            99 => self.feed(),
            _ => self.line("state"),
        }
    }

    /// The double for some microseconds, in one of the forms that a script may have, and now and
    /// then not quite it.
    pub(crate) fn near(&mut self, micros: i64) -> String {
        match self.rng.between(1, 10) {
            1..=6 => word(quotient(micros)),
            7..=8 => {
                let sign = if micros < 0 { "-" } else { "" };
                let micros = micros.unsigned_abs();
                format!("{sign}{}.{:06}", micros / 1_000_000, micros % 1_000_000)
            }
            _ => {
                let part = self.rng.pick(&[-0.499, -0.3, 0.2, 0.4, 0.499]);
                word((micros as f64 + part) / 1_000_000.0)
            }
        }
    }

    /// A double that is easily taken wrongly.
    pub(crate) fn special(&mut self) -> String {
        let double = match self.rng.between(1, 14) {
            1 => f64::NAN,
            2 => f64::from_bits(0xfff0_0000_0000_0001), // a signalling NaN below zero
            3 => f64::INFINITY,
            4 => f64::NEG_INFINITY,
            5 => -0.0,
            6 => self.rng.pick(&[5e-324, -5e-324, f64::MIN_POSITIVE]),
            7 => self.rng.pick(&[SECONDS_LIMIT, -SECONDS_LIMIT]),
            8 => self
                .rng
                .pick(&[SECONDS_LIMIT.next_up(), (-SECONDS_LIMIT).next_down()]),
            9 => self.rng.pick(&[f64::MAX, f64::MIN]),
            10 => f64::from_bits(self.rng.next()),
            _ => self.half(),
        };
        word(double)
    }

    /// An exact half microsecond, or a neighbour of one.
    pub(crate) fn half(&mut self) -> f64 {
        let half = self.exact_half().double();
        match self.rng.between(1, 6) {
            1 => half.next_up(),
            2 => half.next_down(),
            _ => half,
        }
    }

    /// An exact half microsecond, mostly of a few.
    pub(crate) fn exact_half(&mut self) -> Half {
        let number = match self.rng.percent(70) {
            true => self.rng.between(-20, 20),
            false => self.rng.between(-63_999_999, 63_999_999),
        };
        Half(2 * number + 1)
    }

    /// A duration that is or is not within the limits.
    pub(crate) fn duration_at_limit(&mut self) -> u32 {
        self.rng.pick(&[
            1,
            100,
            LONGEST_DURATION - 1,
            LONGEST_DURATION,
            LONGEST_DURATION + 1,
            0,
            u32::MAX,
        ])
    }
}

/// The place in which a frame is shown that is decoded in this one: a picture after the two that refer
/// to it.
fn shown(place: i64) -> i64 {
    const SHOWN: [i64; 4] = [0, 3, 1, 2];
    place - place % 4 + SHOWN[place as usize % 4]
}

/// A double as a script has it.
pub(crate) fn word(double: f64) -> String {
    if double == f64::INFINITY {
        return "inf".to_string();
    }
    script::bits(double)
}

/// The line of a batch's frame that an append stands for, unless it says how long its list is.
fn frame_of(call: &str) -> Option<String> {
    let frame = call.strip_prefix("append ")?;
    (!frame.contains('=')).then(|| format!("frame {frame}"))
}

/// A batch as a script has it: its frames, and the words after their count.
pub(crate) fn batch(frames: &[String], words: &str) -> String {
    let mut call = format!("batch {}{words}", frames.len());
    for frame in frames {
        call.push('\n');
        call.push_str(frame);
    }
    call
}

/// The words after the count of a batch, and its frames.
pub(crate) fn batch_parts(call: &str) -> Option<(String, Vec<String>)> {
    let mut lines = call.lines();
    let words = lines.next()?.strip_prefix("batch ")?;
    let words = words.find(' ').map_or("", |end| &words[end..]);
    Some((words.to_string(), lines.map(str::to_string).collect()))
}
