//! A kept case: a segment, and what ffprobe tells of each track in it.

use std::fs;
use std::path::{Path, PathBuf};

use galumper::{ListedFrame, SegmentTrack};

/// The track number that the frames shall carry: any will do.
const TRACK: u32 = 7;

/// A packet, its times in the track's units.
struct Packet {
    pts: i64,
    dts: i64,
    size: i64,
    key: bool,
}

/// What ffprobe tells of a track.
pub struct Told {
    pub of: SegmentTrack,
    packets: Vec<Packet>,
    /// The end of the last packet, in decode time.
    end: i64,
    /// What ffprobe has added to each presentation time.
    shift: i64,
}

/// A case.
pub struct Case {
    pub name: String,
    pub segment: Vec<u8>,
    pub tracks: Vec<Told>,
}

/// A file of the cases.
pub fn file(name: &str) -> PathBuf {
    let folder = Path::new(env!("CARGO_MANIFEST_DIR")).join("cases");
    folder.join(name)
}

/// Every case.
pub fn cases() -> Vec<Case> {
    let files = fs::read_dir(file("")).expect("a folder");
    let paths = files.map(|file| file.expect("a file").path());
    let texts = paths.filter(|path| path.extension().is_some_and(|end| end == "txt"));
    let case = |path: PathBuf| Case {
        name: path.file_stem().expect("a name").display().to_string(),
        segment: fs::read(path.with_extension("m4s")).expect("a segment"),
        tracks: tracks(&fs::read_to_string(&path).expect("a text")),
    };
    texts.map(case).collect()
}

/// The tracks of a text: each has a line with its numbers, one for every packet, and one with the end.
fn tracks(text: &str) -> Vec<Told> {
    let mut tracks: Vec<Told> = Vec::new();
    for line in text.lines() {
        if line.starts_with("id ") {
            tracks.push(begun(line));
            continue;
        }
        let track = tracks.last_mut().expect("a track");
        if line.starts_with("end ") {
            [track.end, track.shift] = named(line);
            continue;
        }
        track.packets.push(packet(line));
    }
    tracks
}

fn begun(line: &str) -> Told {
    let [id, timescale, duration, size, flags] = named(line);
    Told {
        of: SegmentTrack {
            id,
            track: TRACK,
            timescale,
            duration,
            size,
            flags,
        },
        packets: Vec::new(),
        end: 0,
        shift: 0,
    }
}

fn packet(line: &str) -> Packet {
    let words: Vec<&str> = line.split(',').collect();
    let [pts, dts, size] = [0, 1, 2].map(|n| words[n].parse().expect("a number"));
    let key = words[3].starts_with('K');
    Packet {
        pts,
        dts,
        size,
        key,
    }
}

/// The numbers of a line that has a word before each.
fn named<N: std::str::FromStr, const COUNT: usize>(line: &str) -> [N; COUNT] {
    let words = line.split(' ').skip(1).step_by(2);
    let numbers: Vec<N> = words.filter_map(|word| word.parse().ok()).collect();
    let numbers = numbers.try_into().ok();
    numbers.unwrap_or_else(|| panic!("{line}"))
}

impl Told {
    /// The rows that the library shall list: times converted exactly and rounded down. A packet
    /// lasts until the next one's decode time.
    pub fn rows(&self) -> Vec<ListedFrame> {
        let micros = |time: i64| {
            let exact = i128::from(time) * 1_000_000;
            exact.div_euclid(self.of.timescale.into()) as i64
        };
        let next = self.packets.iter().skip(1).map(|packet| packet.dts);
        let ends = next.chain([self.end]);
        let rows = self.packets.iter().zip(ends).map(|(packet, end)| {
            let pts = packet.pts - self.shift;
            ListedFrame {
                track: TRACK.into(),
                pts: micros(pts),
                dts: micros(packet.dts),
                duration: micros(pts + end - packet.dts) - micros(pts),
                flagged: packet.key.into(),
                size: packet.size,
            }
        });
        rows.collect()
    }
}
