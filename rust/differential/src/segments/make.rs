//! Well-made segments of every shape: none of them is refused 12.

use second::{SegmentTrack, FINEST_TIMESCALE};

use super::case::Case;
use super::tree::{self, Node, Told};
use super::values::Maker;
use crate::rng::Rng;

const TIMESCALES: [u32; 16] = [
    1, 2, 3, 7, 25, 30, 600, 1_000, 12_800, 44_100, 48_000, 90_000, 90_000, 999_983, 999_999,
    1_000_000,
];

const NO_TIMESCALES: [u32; 4] = [0, FINEST_TIMESCALE + 1, 10_000_000, u32::MAX];

/// IDs of tracks; the one that is asked for is one of them.
const IDS: [u32; 5] = [1, 2, 3, 0, u32::MAX];

/// Sample flags, of which the bit 0x10000 counts.
const FLAGS: [u32; 8] = [
    0,
    0x1_0000,
    0x101_0000,
    0x200_0000,
    0xfffe_ffff,
    0x2_0000,
    0x8000,
    u32::MAX,
];

/// Boxes that are skipped, one that differs from a known one by case alone among them.
const OTHERS: [&[u8; 4]; 12] = [
    b"free",
    b"skip",
    b"uuid",
    b"emsg",
    b"prft",
    b"mdat",
    b"sidx",
    b"saiz",
    b"sbgp",
    b"MOOF",
    b"tfh ",
    b"\0\0\0\0",
];

/// A well-made segment and what is asked of it.
pub(super) fn make(rng: &mut Rng) -> (Case, Vec<Node>) {
    let wild = rng.percent(30);
    // At the finest timescale a media time is a microsecond: there the limits are met exactly.
    let timescale = match rng.between(1, 100) {
        1..=3 => rng.pick(&NO_TIMESCALES),
        4..=20 => FINEST_TIMESCALE,
        _ => rng.pick(&TIMESCALES),
    };
    let mut maker = Maker {
        of: SegmentTrack {
            id: rng.pick(&IDS),
            track: rng.pick(&[1, 1, 2, 3, 4, 0, 5, 257, u32::MAX]),
            timescale,
            duration: 0,
            size: rng.next() as u32 >> rng.between(0, 31),
            flags: rng.pick(&FLAGS),
        },
        rng,
        wild,
        frames: 0,
        start: 0,
    };
    maker.of.duration = maker.duration();
    let nodes = maker.segment();
    let places = maker.places();
    let case = Case {
        of: maker.of,
        places,
        bytes: tree::bytes(&nodes),
    };
    (case, nodes)
}

impl Maker<'_> {
    /// As many places as frames, a few more, or too few.
    fn places(&mut self) -> usize {
        const MOST: u64 = 1024;
        let frames = self.frames.min(MOST) as usize;
        match self.rng.between(1, 10) {
            1..=5 => frames,
            6..=8 => frames + self.rng.between(1, 8) as usize,
            9 => frames.saturating_sub(1),
            _ => self.rng.between(0, 64) as usize,
        }
    }

    fn segment(&mut self) -> Vec<Node> {
        let mut nodes = Vec::new();
        if self.rng.percent(60) {
            nodes.push(Node::new(b"styp", b"msdh\0\0\0\0msdhmsix".to_vec()));
        }
        if self.rng.percent(30) {
            nodes.push(Node::full(b"sidx", 0, 0, &[1, self.of.timescale, 0, 0, 0]));
        }
        self.others(&mut nodes);
        let moof = self.movie_fragment();
        nodes.push(self.sized(moof));
        self.others(&mut nodes);
        if self.rng.percent(70) {
            let mdat = Node::new(b"mdat", self.payload());
            nodes.push(self.sized(mdat));
        }
        nodes
    }

    /// Media data, now and then longer than 16 bits count.
    fn payload(&mut self) -> Vec<u8> {
        if self.rng.between(1, 500) == 1 {
            return vec![0; 70_000];
        }
        let length = self.rng.between(0, 40) as usize;
        self.noise(length)
    }

    fn movie_fragment(&mut self) -> Node {
        let mut boxes = Vec::new();
        if self.rng.percent(90) {
            let number = self.rng.next() as u32;
            boxes.push(Node::full(b"mfhd", 0, 0, &[number]));
        }
        for _ in 0..self.rng.pick(&[0, 1, 1, 1, 1, 1, 2, 2, 3, 4]) {
            self.others(&mut boxes);
            let traf = self.track_fragment();
            boxes.push(self.sized(traf));
        }
        self.others(&mut boxes);
        Node::parent(b"moof", boxes)
    }

    /// A fragment of the track that is asked for, or of another.
    fn track_fragment(&mut self) -> Node {
        let id = match self.rng.percent(70) {
            true => self.of.id,
            false => self.rng.pick(&IDS),
        };
        let ours = id == self.of.id;
        let mut boxes = vec![self.header(id)];
        if ours || self.rng.percent(80) {
            let time = self.decode_time();
            let place = usize::from(self.rng.percent(75));
            boxes.insert(place, time);
        }
        for _ in 0..self.rng.pick(&[0, 1, 1, 1, 1, 2, 3]) {
            self.others(&mut boxes);
            let run = self.run(ours);
            boxes.push(self.sized(run));
        }
        self.others(&mut boxes);
        Node::parent(b"traf", boxes)
    }

    fn header(&mut self, id: u32) -> Node {
        let mut flags = self.rng.pick(&[0, 0x2_0000, 0x3_0000, 0x80_0044]);
        let mut words = vec![id];
        for (flag, width) in [(0x1, 2), (0x2, 1)] {
            if self.rng.percent(25) {
                flags |= flag;
                words.extend((0..width).map(|_| self.rng.next() as u32));
            }
        }
        let defaults = [
            (0x8, self.duration()),
            (0x10, self.rng.next() as u32),
            (0x20, self.rng.pick(&FLAGS)),
        ];
        for (flag, word) in defaults {
            if self.rng.percent(40) {
                flags |= flag;
                words.push(word);
            }
        }
        let node = Node::full(b"tfhd", 0, flags, &self.longer(words));
        self.sized(node)
    }

    fn decode_time(&mut self) -> Node {
        let time = self.time();
        self.start = time;
        let [high, low] = [(time >> 32) as u32, time as u32];
        let flags = self.rng.pick(&[0, 0, 0, 0xff_ffff]);
        let node = match high == 0 && self.rng.percent(60) {
            true => Node::full(b"tfdt", 0, flags, &self.longer(vec![low])),
            false => Node::full(b"tfdt", 1, flags, &self.longer(vec![high, low])),
        };
        self.sized(node)
    }

    /// A run with any columns, of any version.
    fn run(&mut self, ours: bool) -> Node {
        let version = self.rng.pick(&[0, 1]);
        let columns = self.rng.between(0, 15) as u32;
        let mut flags = columns << 8 | self.rng.pick(&[0, 0, 0, 0xff_f0fa]);
        let count = self.count(columns);
        let mut words = vec![count];
        for (flag, word) in [(0x1, self.rng.next() as u32), (0x4, self.rng.pick(&FLAGS))] {
            if self.rng.percent(40) {
                flags |= flag;
                words.push(word);
            }
        }
        if columns != 0 {
            for _ in 0..count {
                self.sample(columns, version, &mut words);
            }
        }
        if ours {
            self.frames += u64::from(count);
        }
        Node::full(b"trun", version, flags, &self.longer(words))
    }

    fn sample(&mut self, columns: u32, version: u8, words: &mut Vec<u32>) {
        let numbers = [
            self.duration(),
            self.rng.next() as u32 >> self.rng.between(0, 31),
            self.rng.pick(&FLAGS),
            self.offset(version),
        ];
        for (column, number) in numbers.into_iter().enumerate() {
            if columns >> column & 1 == 1 {
                words.push(number);
            }
        }
    }

    /// Now and then longer than its fields, which is good.
    fn longer(&mut self, mut words: Vec<u32>) -> Vec<u32> {
        if self.rng.percent(8) {
            words.push(self.rng.next() as u32);
        }
        words
    }

    /// Now and then with a 64-bit size.
    fn sized(&mut self, node: Node) -> Node {
        let told = match self.rng.percent(8) {
            true => Told::Large(0),
            false => node.told,
        };
        Node { told, ..node }
    }

    /// Now and then a box that is skipped.
    fn others(&mut self, boxes: &mut Vec<Node>) {
        if self.rng.percent(15) {
            let kind = self.rng.pick(&OTHERS);
            let length = self.rng.between(0, 20) as usize;
            let node = Node::new(kind, self.noise(length));
            boxes.push(self.sized(node));
        }
    }

    fn noise(&mut self, length: usize) -> Vec<u8> {
        (0..length).map(|_| self.rng.next() as u8).collect()
    }
}
