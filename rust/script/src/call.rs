//! Reading a call of a script.

use second::{Feed, Mode, Offered, SegmentTrack, BATCH_LINES, FRAME_PLACES, LUMP_BYTES};

use crate::lines::LONGEST_LINE;
use crate::lump::{Lump, LONGEST_BUFFER};
use crate::poke::Poke;
use crate::words::{bytes, flag, mode, natural, place, seconds, whole};

/// A call, with the lengths of the lists lent to it or asked about.
#[derive(Clone, Debug, PartialEq)]
pub enum Call {
    /// Creates a buffer in the slot in use.
    Create(Vec<u32>),
    /// Appends a frame.
    Append(Offered, usize),
    /// Appends a list of frames.
    Batch(Vec<Offered>, usize),
    /// Removes a stretch of time.
    Remove(f64, f64, usize),
    /// Aborts.
    Abort,
    /// Sets the mode.
    Mode(Mode),
    /// Sets the offset.
    Offset(f64),
    /// Sets the window start.
    WindowStart(f64),
    /// Sets the window end.
    WindowEnd(f64),
    /// Reads the settings back.
    Settings,
    /// Reports a track's ranges.
    Ranges(u32, usize),
    /// Reports the common ranges.
    Common(usize),
    /// Counts the frames that a track's report takes, into a list of so many places.
    Walked(u32, usize),
    /// Finds where to start decoding for a track and an instant.
    Seek(u32, i64),
    /// Lists a track's frames from a segment.
    Segment(SegmentTrack, Vec<u8>, usize),
    /// Takes a lump of a segment, and where it is the last lists a track's frames.
    Lump(Lump),
    /// Makes the reader of lumps a fresh one.
    LumpFresh,
    /// Picks what to feed, of initialization bytes and a segment.
    Feed(Feed, Vec<u8>, Vec<u8>),
    /// Prints the state.
    State,
    /// Takes a slot in use.
    Buffer(usize),
    /// Copies the state aside.
    Save,
    /// Brings the copy back.
    Restore,
    /// Writes a field of the state.
    Poke(Poke),
}

/// No list that a script lends is longer than this.
const LONGEST_LIST: usize = 4096;

/// The calls that are lent a list, or asked about one: the word `name=K` that says how long it is, and
/// its length where that is left out.
const LENT: [(&str, &str, usize); 7] = [
    ("append", "fates", FRAME_PLACES),
    ("remove", "fates", FRAME_PLACES),
    (BATCH, "fates", BATCH_LINES),
    ("ranges", "places", LONGEST_LIST),
    ("common", "places", LONGEST_LIST),
    ("walked", "places", LONGEST_LIST),
    ("segment", "places", LONGEST_LIST),
];

const BATCH: &str = "batch";

impl Call {
    /// Reads a call, a batch with the lines of its frames; nothing if it is not one of the paper's.
    pub fn read(call: &str) -> Option<Self> {
        match call.starts_with("batch ") {
            true => Self::read_batch(call),
            false => Self::read_line(call),
        }
    }

    /// A batch, whose frames must be as many as its first line says.
    fn read_batch(call: &str) -> Option<Self> {
        let mut lines = call.split('\n');
        let (count, length) = batch(lines.next()?)?;
        let frames: Vec<Offered> = lines.map(frame).collect::<Option<_>>()?;
        (frames.len() == count).then_some(Self::Batch(frames, length))
    }

    fn read_line(line: &str) -> Option<Self> {
        let mut words = words(line)?;
        if words.first() == Some(&"lump") {
            return read_lump(words).map(Self::Lump);
        }
        let length = lent(&mut words)?;
        Some(match *words {
            ["create", ref kinds @ ..] => Self::Create(
                kinds
                    .iter()
                    .map(|kind| natural(kind))
                    .collect::<Option<_>>()?,
            ),
            ["append", ref frame @ ..] => Self::Append(offered(frame)?, length),
            ["remove", start, end] => Self::Remove(seconds(start)?, seconds(end)?, length),
            ["abort"] => Self::Abort,
            ["mode", word] => Self::Mode(mode(word)?),
            ["offset", time] => Self::Offset(seconds(time)?),
            ["window-start", time] => Self::WindowStart(seconds(time)?),
            ["window-end", time] => Self::WindowEnd(seconds(time)?),
            ["settings"] => Self::Settings,
            ["ranges", track] => Self::Ranges(natural(track)?, length),
            ["common"] => Self::Common(length),
            ["walked", track] => Self::Walked(natural(track)?, length),
            ["seek", track, instant] => Self::Seek(natural(track)?, whole(instant)?),
            ["segment", ref asked @ .., segment] => {
                Self::Segment(segment_track(asked)?, bytes(segment)?, length)
            }
            ["lump-fresh"] => Self::LumpFresh,
            ["feed", of, start, end, initialization, segment] => Self::Feed(
                fed(of, start, end)?,
                bytes(initialization)?,
                bytes(segment)?,
            ),
            ["state"] => Self::State,
            ["buffer", "1"] => Self::Buffer(0),
            ["buffer", "2"] => Self::Buffer(1),
            ["save"] => Self::Save,
            ["restore"] => Self::Restore,
            ["poke", ref words @ ..] => Self::Poke(Poke::read(words)?),
            _ => return None,
        })
    }
}

/// The words of a line.
fn words(line: &str) -> Option<Vec<&str>> {
    (line.len() <= LONGEST_LINE).then(|| line.split(' ').collect())
}

/// The length of the list that a call is lent or asked about, whose word is taken off the end if it is
/// there; 0 for a call that has none.
fn lent(words: &mut Vec<&str>) -> Option<usize> {
    let row = LENT.iter().find(|(call, ..)| words.first() == Some(call));
    let Some((_, name, default)) = row else {
        return Some(0);
    };
    length(said(words, name), *default, LONGEST_LIST)
}

/// A lump by its words. Those on what it is lent stand at the end in any order.
fn read_lump(mut words: Vec<&str>) -> Option<Lump> {
    let places = said(&mut words, "places");
    let buffer = said(&mut words, "buffer");
    let places = places.or_else(|| said(&mut words, "places"));
    let ["lump", end, ref asked @ .., lump] = *words else {
        return None;
    };
    Some(Lump {
        last: match end {
            "more" => false,
            "last" => true,
            _ => return None,
        },
        of: segment_track(asked)?,
        bytes: bytes(lump)?,
        places: length(places, LONGEST_LIST, LONGEST_LIST)?,
        buffer: length(buffer, LUMP_BYTES, LONGEST_BUFFER)?,
    })
}

/// What the word `name=K` says, which is taken off the end if it is there.
fn said<'w>(words: &mut Vec<&'w str>, name: &str) -> Option<&'w str> {
    let (_, count) = words
        .last()?
        .split_once('=')
        .filter(|(said, _)| *said == name)?;
    words.pop();
    Some(count)
}

/// The length that a word says, or the default where there is none.
fn length(said: Option<&str>, default: usize, longest: usize) -> Option<usize> {
    match said {
        Some(count) => whole(count).filter(|&count| count <= longest),
        None => Some(default),
    }
}

/// What is fed, by its words. The initialization is fed whole, whatever the place.
fn fed(of: &str, start: &str, end: &str) -> Option<Feed> {
    let (start, end) = (place(start)?, place(end)?);
    match of {
        "init" => Some(Feed::Initialization),
        "segment" => Some(Feed::Part { start, end }),
        _ => None,
    }
}

/// The track of a segment that is listed, by its words.
fn segment_track(words: &[&str]) -> Option<SegmentTrack> {
    let &[id, track, timescale, duration, size, flags] = words else {
        return None;
    };
    Some(SegmentTrack {
        id: whole(id)?,
        track: whole(track)?,
        timescale: whole(timescale)?,
        duration: whole(duration)?,
        size: whole(size)?,
        flags: whole(flags)?,
    })
}

/// How many frames a batch has and how long its fate list is, by its first line.
pub(crate) fn batch(line: &str) -> Option<(usize, usize)> {
    let mut words = words(line)?;
    let length = lent(&mut words)?;
    match *words {
        [BATCH, count] => Some((natural(count)? as usize, length)),
        _ => None,
    }
}

/// A frame of a batch by its line.
pub(crate) fn frame(line: &str) -> Option<Offered> {
    match *words(line)? {
        ["frame", ref frame @ ..] => offered(frame),
        _ => None,
    }
}

/// A frame as offered, by its words.
fn offered(words: &[&str]) -> Option<Offered> {
    let &[track, pts, dts, duration, flagged] = words else {
        return None;
    };
    Some(Offered {
        track: natural(track)?,
        pts: whole(pts)?,
        dts: whole(dts)?,
        duration: whole(duration)?,
        flagged: flag(flagged)?,
    })
}

#[cfg(test)]
mod tests {
    use super::*;

    #[test]
    fn the_length_of_its_own_list() {
        assert_eq!(Call::read("common places=7"), Some(Call::Common(7)));
        assert_eq!(Call::read("common"), Some(Call::Common(4096)));
        assert_eq!(Call::read("common places=4096"), Some(Call::Common(4096)));
        for bad in [
            "common place=7",
            "common fates=7",
            "common places=4097",
            "common places=",
            "common places=7 places=7",
            "common places=7 fates=7",
            "abort fates=7",
            "create places=7",
        ] {
            assert_eq!(Call::read(bad), None, "{bad}");
        }
    }

    #[test]
    fn how_far_a_report_comes() {
        for (line, track, places) in [
            ("walked 1", 1, 4096),
            ("walked 0 places=0", 0, 0),
            ("walked 3 places=4096", 3, 4096),
            ("walked 99999999999 places=007", u32::MAX, 7),
        ] {
            assert_eq!(
                Call::read(line),
                Some(Call::Walked(track, places)),
                "{line}"
            );
        }
        for bad in [
            "walked",
            "walked -1",
            "walked 1 1",
            "walked 1 fates=7",
            "walked 1 places=4097",
            "walked 1 places=-1",
            "walked places=7",
            "walked 1 places=7 places=7",
        ] {
            assert_eq!(Call::read(bad), None, "{bad}");
        }
    }

    #[test]
    fn a_track_and_an_instant() {
        for (line, track, instant) in [
            ("seek 1 0", 1, 0),
            ("seek 0 -0", 0, 0),
            ("seek 4 -007", 4, -7),
            ("seek 99999999999 9223372036854775807", u32::MAX, i64::MAX),
            ("seek 1 -9223372036854775808", 1, i64::MIN),
        ] {
            assert_eq!(Call::read(line), Some(Call::Seek(track, instant)), "{line}");
        }
        for bad in [
            "seek",
            "seek 1",
            "seek 1 0 0",
            "seek -1 0",
            "seek 1 +0",
            "seek 1 0.5",
            "seek 1 0x0000000000000000",
            "seek 1 9223372036854775808",
            "seek 1 -9223372036854775809",
            "seek 1 0 places=1",
            "seek 1  0",
        ] {
            assert_eq!(Call::read(bad), None, "{bad}");
        }
    }

    #[test]
    fn what_to_feed_in_digits() {
        let feed = |feed, initialization: &[u8], segment: &[u8]| {
            Some(Call::Feed(feed, initialization.to_vec(), segment.to_vec()))
        };
        let part = |start, end| Feed::Part { start, end };
        for (line, wanted) in [
            ("feed init 0 0 - -", feed(Feed::Initialization, &[], &[])),
            (
                "feed init 9 18446744073709551615 00ff 1a",
                feed(Feed::Initialization, &[0x00, 0xff], &[0x1a]),
            ),
            ("feed segment 0 1 - 1a", feed(part(0, 1), &[], &[0x1a])),
            ("feed segment 7 007 1a -", feed(part(7, 7), &[0x1a], &[])),
            (
                "feed segment 0 18446744073709551616 - -",
                feed(part(0, usize::MAX), &[], &[]),
            ),
            (
                "feed segment 18446744073709551615 0 00 01",
                feed(part(usize::MAX, 0), &[0x00], &[0x01]),
            ),
        ] {
            assert_eq!(Call::read(line), wanted, "{line}");
        }
        for bad in [
            "feed",
            "feed init",
            "feed init - -",
            "feed init 0 - -",
            "feed init 0 0 -",
            "feed init 0 0 - - -",
            "feed init x 0 - -",
            "feed init 0 -1 - -",
            "feed initialization 0 0 - -",
            "feed part 0 0 - -",
            "feed segment -1 0 - -",
            "feed segment 0 0 0 -",
            "feed segment 0 0 - 0F",
            "feed segment 0 0 - - places=1",
            "feed segment 0 0 - - buffer=1",
        ] {
            assert_eq!(Call::read(bad), None, "{bad}");
        }
    }

    #[test]
    fn a_line_that_is_too_long() {
        let create = |length: usize| format!("create {}1", "0".repeat(length - "create 1".len()));
        let longest = Call::read(&create(LONGEST_LINE));
        assert_eq!(longest, Some(Call::Create(vec![1])));
        assert_eq!(Call::read(&create(LONGEST_LINE + 1)), None);
    }

    #[test]
    fn a_segment_in_digits() {
        let of = SegmentTrack {
            id: 1,
            track: 2,
            timescale: 3,
            duration: 4,
            size: 5,
            flags: u32::MAX,
        };
        let segment = |bytes: &[u8]| Some(Call::Segment(of, bytes.to_vec(), 7));
        let line = "segment 1 2 3 4 5 4294967295";
        assert_eq!(Call::read(&format!("{line} - places=7")), segment(&[]));
        let read = Call::read(&format!("{line} 00ff1a places=7"));
        assert_eq!(read, segment(&[0x00, 0xff, 0x1a]));
        for bad in ["", "0", "00f", "0F", "0x", "--", "0-"] {
            assert_eq!(Call::read(&format!("{line} {bad}")), None, "{bad}");
        }
    }

    #[test]
    fn a_lump_in_digits() {
        let lump = |last, bytes: &[u8], places, buffer| {
            let of = SegmentTrack {
                id: 1,
                track: 2,
                timescale: 3,
                duration: 4,
                size: 5,
                flags: 6,
            };
            let bytes = bytes.to_vec();
            Some(Call::Lump(Lump {
                last,
                of,
                bytes,
                places,
                buffer,
            }))
        };
        let more = "lump more 1 2 3 4 5 6";
        for (words, places, buffer) in [
            ("", 4096, 65_536),
            (" places=7", 7, 65_536),
            (" buffer=65535", 4096, 65_535),
            (" places=0 buffer=0", 0, 0),
            (" buffer=131072 places=4096", 4096, 131_072),
        ] {
            let read = Call::read(&format!("{more} 00ff{words}"));
            assert_eq!(read, lump(false, &[0x00, 0xff], places, buffer), "{words}");
        }
        let last = Call::read("lump last 1 2 3 4 5 6 -");
        assert_eq!(last, lump(true, &[], 4096, 65_536));
        let long = Call::read(&format!("{more} {}", "00".repeat(65_600)));
        assert_eq!(long, lump(false, &[0; 65_600], 4096, 65_536));
        for bad in [
            "lump",
            "lump more",
            "lump next 1 2 3 4 5 6 -",
            "lump more 1 2 3 4 5 -",
            "lump more 1 2 3 4 5 6 7 -",
            "lump more 1 2 3 4 5 4294967296 -",
            "lump more 1 2 3 4 5 6 -0",
            "lump more 1 2 3 4 5 6 00f",
            "lump more 1 2 3 4 5 6 - fates=7",
            "lump more 1 2 3 4 5 6 - places=4097",
            "lump more 1 2 3 4 5 6 - buffer=131073",
            "lump more 1 2 3 4 5 6 - buffer=",
            "lump more 1 2 3 4 5 6 - buffer=-1",
            "lump more 1 2 3 4 5 6 - places=1 places=1",
            "lump more 1 2 3 4 5 6 - buffer=1 buffer=1",
            "lump more 1 2 3 4 5 6 - places=1 buffer=1 places=1",
            "lump more 1 2 3 4 5 6 places=1 -",
            "lump-fresh 1",
            "lump-fresh places=1",
        ] {
            assert_eq!(Call::read(bad), None, "{bad}");
        }
        assert_eq!(Call::read("lump-fresh"), Some(Call::LumpFresh));
    }

    #[test]
    fn a_batch_with_its_frames() {
        let frame = Offered {
            track: 1,
            pts: -5,
            dts: 7,
            duration: 100,
            flagged: true,
        };
        let line = "frame 1 -5 7 100 1";
        let read = Call::read(&format!("batch 2 fates=9\n{line}\n{line}"));
        assert_eq!(read, Some(Call::Batch(vec![frame; 2], 9)));
        assert_eq!(Call::read("batch 0"), Some(Call::Batch(vec![], 1088)));
        let many = format!("batch 100{}", format!("\n{line}").repeat(100));
        assert_eq!(Call::read(&many), Some(Call::Batch(vec![frame; 100], 1088)));
        for bad in [
            "batch".to_string(),
            "batch -1".to_string(),
            "batch 0 0".to_string(),
            "batch 0 fate=1".to_string(),
            "batch 1".to_string(),
            format!("batch 2\n{line}"),
            format!("batch 1\n{line}\n{line}"),
            format!("batch 1\n{line} fates=9"),
            "batch 1\nframe 1 0 0 100".to_string(),
            "batch 1\nframe 1 0 0 100 2".to_string(),
            "batch 1\nframe 1 0 0 -1 1".to_string(),
            "batch 1\nframe 1 0 0 100 1 0".to_string(),
            "batch 1\nappend 1 0 0 100 1".to_string(),
            line.to_string(),
        ] {
            assert_eq!(Call::read(&bad), None, "{bad}");
        }
    }

    #[test]
    fn what_is_not_a_call() {
        for bad in [
            "segment 1 2 3 4 5 6",
            "segment 1 2 3 4 5 4294967296 -",
            "segment 1 2 3 4 5 -6 -",
            "room 1 0",
            "append 1 0 0 100",
            "append 1 0 0 100 2",
            "append 1 0 0 100 1 0",
            "append 1 +0 0 100 1",
            "append 1 0 0 -1 1",
            "mode both",
            "buffer 3",
            "poke group",
            "poke group unset",
            "poke track 5 kind 0",
            "poke track 1 group 0",
            "poke frame 0 p 0",
            "poke frame 0 group 0",
            "poke group-start unsettled",
            " state",
            "abort\nabort",
        ] {
            assert_eq!(Call::read(bad), None, "{bad}");
        }
    }
}
