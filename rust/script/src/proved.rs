//! The proved library as a [`Subject`]: its numbers in the words of `second`, and back.

use std::array;

use galumper::{Buffer, Fate, Kind, ListedFrame, LumpReader, Range, Refusal, Track, LUMP};
use second::{
    End, Feed, Frame, Head, Maybe, Mode, Offered, Reading, Seconds, SegmentTrack, Settings, Start,
    State, WindowEnd, TRACK_PLACES,
};

use crate::batch::Batch;
use crate::poke::{FrameField, Poke, TrackField};
use crate::subject::{Declined, Subject};

/// The proved library.
#[derive(Clone, Copy, Debug, Default)]
pub struct Proved;

// The phases of a lump reader there.
const HEADING: u32 = 0;
const PASSING: u32 = 1;
const KEEPING: u32 = 2;
const STUCK: u32 = 3;

fn numbered<A>(result: Result<A, Refusal>) -> Result<A, u32> {
    result.map_err(Refusal::number)
}

/// Kinds are bytes there. 255 is none, as is every number above it.
fn kind(number: u32) -> Kind {
    Kind(u8::try_from(number).unwrap_or(u8::MAX))
}

fn mode_there(mode: Mode) -> galumper::Mode {
    match mode {
        Mode::Segments => galumper::Mode::Segments,
        Mode::Sequence => galumper::Mode::Sequence,
    }
}

fn track_there(of: SegmentTrack) -> galumper::SegmentTrack {
    galumper::SegmentTrack {
        id: of.id,
        track: of.track,
        timescale: of.timescale,
        duration: of.duration,
        size: of.size,
        flags: of.flags,
    }
}

fn feed_there(feed: Feed) -> galumper::Feed {
    match feed {
        Feed::Initialization => galumper::Feed::Initialization,
        Feed::Part { start, end } => galumper::Feed::Part { start, end },
    }
}

impl Subject for Proved {
    type State = Box<Buffer>;
    type Fate = Fate;
    type Stretch = Range;
    type Row = ListedFrame;
    type Reader = LumpReader;

    fn create(&mut self, kinds: &[u32]) -> Result<Self::State, u32> {
        let kinds: Vec<Kind> = kinds.iter().copied().map(kind).collect();
        numbered(galumper::create(&kinds))
    }

    fn append(
        &mut self,
        buffer: &mut Self::State,
        offered: &Offered,
        fates: &mut [Fate],
    ) -> Result<usize, u32> {
        let offered = galumper::Offered {
            track: offered.track,
            flagged: offered.flagged,
            duration: offered.duration,
            pts: offered.pts,
            dts: offered.dts,
        };
        numbered(buffer.append(offered, fates))
    }

    fn append_batch(
        &mut self,
        buffer: &mut Self::State,
        frames: &[ListedFrame],
        fates: &mut [Fate],
    ) -> Result<Batch, u32> {
        let batch = numbered(buffer.append_batch(frames, fates))?;
        Ok(Batch {
            accepted: batch.accepted,
            stop: batch.stop.map(Refusal::number),
            lines: batch.lines,
        })
    }

    fn remove(
        &mut self,
        buffer: &mut Self::State,
        start: f64,
        end: f64,
        fates: &mut [Fate],
    ) -> Result<usize, u32> {
        numbered(buffer.remove(start, end, fates))
    }

    fn abort(&mut self, buffer: &mut Self::State) -> Result<(), u32> {
        numbered(buffer.abort())
    }

    fn set_mode(&mut self, buffer: &mut Self::State, mode: Mode) -> Result<(), u32> {
        numbered(buffer.set_mode(mode_there(mode)))
    }

    fn set_offset(&mut self, buffer: &mut Self::State, seconds: f64) -> Result<(), u32> {
        numbered(buffer.set_offset(seconds))
    }

    fn set_window_start(&mut self, buffer: &mut Self::State, seconds: f64) -> Result<(), u32> {
        numbered(buffer.set_window_start(seconds))
    }

    fn set_window_end(&mut self, buffer: &mut Self::State, seconds: f64) -> Result<(), u32> {
        numbered(buffer.set_window_end(seconds))
    }

    fn read_settings(&mut self, buffer: &Self::State) -> Result<Reading, u32> {
        let reading = numbered(buffer.read_settings())?;
        Ok(Reading {
            offset: reading.offset,
            window_start: reading.start,
            window_end: reading.end.map_or(WindowEnd::Unbounded, WindowEnd::Seconds),
        })
    }

    fn track_ranges(
        &mut self,
        buffer: &Self::State,
        track: u32,
        list: &mut [Range],
    ) -> Result<usize, u32> {
        numbered(buffer.track_ranges(track, list))
    }

    fn common_ranges(&mut self, buffer: &Self::State, list: &mut [Range]) -> Result<usize, u32> {
        numbered(buffer.common_ranges(list))
    }

    fn walked(&mut self, buffer: &Self::State, track: u32, places: usize) -> Result<usize, u32> {
        numbered(buffer.walked(track, places))
    }

    fn seek(&mut self, buffer: &Self::State, track: u32, instant: i64) -> Result<Start, u32> {
        let start = numbered(buffer.seek(track, instant))?;
        Ok(Start {
            target: start.target,
            flagged: start.flagged,
            count: start.count,
        })
    }

    fn list_segment(
        &mut self,
        of: SegmentTrack,
        segment: &[u8],
        list: &mut [ListedFrame],
    ) -> Result<usize, u32> {
        numbered(galumper::list_segment(track_there(of), segment, list))
    }

    fn take_lump(
        &mut self,
        reader: &mut LumpReader,
        of: SegmentTrack,
        buffer: &mut [u8],
        lump: &[u8],
        last: bool,
        list: &mut [ListedFrame],
    ) -> Result<usize, u32> {
        numbered(reader.take_lump(track_there(of), buffer, lump, last, list))
    }

    fn feed<'a>(&mut self, initialization: &'a [u8], segment: &'a [u8], feed: Feed) -> &'a [u8] {
        galumper::feed(initialization, segment, feed_there(feed))
    }

    fn view(&self, buffer: &Self::State) -> State {
        let head = &buffer.head;
        State {
            head: Head {
                track_count: head.ntracks,
                tracks: head.tracks.map(track_seen),
                last_number: head.last,
                group: head.group.number,
                mode: match head.mode {
                    0 => Mode::Segments,
                    _ => Mode::Sequence,
                },
                group_start: Maybe {
                    set: head.group.begun == 1,
                    value: head.group.start,
                },
                group_end: head.group.end,
                settings: settings_seen(&head.settings),
            },
            frame_count: head.nframes,
            frames: array::from_fn(|place| frame_seen(buffer.times[place], buffer.tags[place])),
        }
    }

    fn poke(&mut self, buffer: &mut Self::State, poke: &Poke) -> Result<(), Declined> {
        let head = &mut buffer.head;
        let settings = &mut head.settings;
        match *poke {
            Poke::LastNumber(number) => head.last = number.try_into()?,
            Poke::Group(number) => head.group.number = number.try_into()?,
            Poke::Mode(mode) => head.mode = mode_there(mode).number(),
            Poke::GroupStart(Maybe { set, value }) => {
                head.group.begun = u32::from(set);
                head.group.start = value;
            }
            Poke::GroupEnd(end) => head.group.end = end,
            Poke::OffsetMicros(micros) => settings.offset.micros = micros,
            Poke::OffsetDouble(double) => settings.offset.bits = double.to_bits(),
            Poke::WindowStartMicros(micros) => settings.start.micros = micros,
            Poke::WindowStartDouble(double) => settings.start.bits = double.to_bits(),
            Poke::WindowEndMicros(Maybe { set, value }) => {
                settings.bounded = u64::from(set);
                settings.limit = value;
            }
            Poke::WindowEndDouble(double) => settings.end = double.to_bits(),
            Poke::Tracks(count) => head.ntracks = count.try_into()?,
            Poke::Track(place, field) => poke_track(&mut head.tracks, place, field)?,
            Poke::Frames(count) => head.nframes = count.try_into()?,
            Poke::Frame(place, field) => poke_frame(buffer, place, field)?,
        }
        Ok(())
    }

    /// Each fails one clause of what is asked of a reader, and there is one for every clause.
    fn damaged_readers(&self, reader: &LumpReader) -> Vec<LumpReader> {
        let met = |fragments, kept, reader| LumpReader {
            fragments,
            kept,
            ..reader
        };
        let between = met(reader.fragments, reader.kept, LumpReader::default());
        let at = |phase, left| LumpReader {
            phase,
            left,
            ..between
        };
        let seen = |seen, reader| LumpReader { seen, ..reader };
        let large = LumpReader {
            head: *b"\0\0\0\x01mdat\0\0\0\0\0\0\0\x11",
            ..between
        };
        let full = LUMP - 8; // the body of the largest movie fragment
        vec![
            large,
            met(3, 0, between),
            met(1, full + 1, between),
            met(0, 1, between),
            seen(16, large),
            seen(8, between),
            at(HEADING, 1),
            seen(1, at(PASSING, 1)),
            at(PASSING, 0),
            at(PASSING, u64::MAX),
            met(1, 0, seen(1, at(KEEPING, 1))),
            met(1, 0, at(KEEPING, 0)),
            met(1, full, at(KEEPING, 1)),
            met(0, 0, at(KEEPING, 1)),
            met(2, 0, at(KEEPING, 1)),
            seen(1, at(STUCK, 0)),
            at(STUCK, 1),
            at(STUCK + 1, 0),
        ]
    }
}

fn settings_seen(settings: &galumper::Settings) -> Settings {
    let seconds = |setting: galumper::Setting| Seconds {
        double: setting.seconds(),
        micros: setting.micros,
    };
    Settings {
        offset: seconds(settings.offset),
        window_start: seconds(settings.start),
        window_end: End {
            bounded: settings.bounded == 1,
            time: Seconds {
                double: f64::from_bits(settings.end),
                micros: settings.limit,
            },
        },
    }
}

fn frame_seen([pts, dts]: [i64; 2], [track, flag, duration, number, group]: [u32; 5]) -> Frame {
    Frame {
        track,
        number,
        pts,
        dts,
        duration,
        flagged: flag == 1,
        group,
    }
}

fn track_seen(track: Track) -> second::Track {
    let [decode, duration, end] = three(track.known);
    let maybe = |set, value| Maybe { set, value };
    second::Track {
        kind: track.kind.0.into(),
        last_decode: maybe(decode, track.dts),
        last_duration: maybe(duration, track.duration.into()),
        highest_end: maybe(end, track.end),
        need_random_access: track.need == 1,
    }
}

/// Which of the three are set. One flag says it for all of them there; a state with some of them
/// set is one whose flag is neither 0 nor 1, and the numbers from 2 on tell which.
fn three(known: u8) -> [bool; 3] {
    match known {
        0 => [false; 3],
        1 => [true; 3],
        partly => [0, 1, 2].map(|bit| (partly - 2) >> bit & 1 == 1),
    }
}

fn known(three: [bool; 3]) -> u8 {
    match three {
        [false, false, false] => 0,
        [true, true, true] => 1,
        [decode, duration, end] => {
            2 + u8::from(decode) + 2 * u8::from(duration) + 4 * u8::from(end)
        }
    }
}

fn poke_track(
    tracks: &mut [Track; TRACK_PLACES],
    place: usize,
    field: TrackField,
) -> Result<(), Declined> {
    let track = tracks.get_mut(place).ok_or(Declined)?;
    let mut three = three(track.known);
    match field {
        TrackField::Kind(kind) => track.kind = Kind(kind.try_into()?),
        TrackField::LastDecode(time) => {
            three[0] = time.set;
            track.dts = time.value;
        }
        TrackField::LastDuration(duration) => {
            three[1] = duration.set;
            track.duration = duration.value.try_into()?;
        }
        TrackField::HighestEnd(time) => {
            three[2] = time.set;
            track.end = time.value;
        }
        TrackField::Need(need) => track.need = u16::from(need),
    }
    track.known = known(three);
    Ok(())
}

fn poke_frame(buffer: &mut Buffer, place: usize, field: FrameField) -> Result<(), Declined> {
    let time = buffer.times.get_mut(place).ok_or(Declined)?;
    let tag = buffer.tags.get_mut(place).ok_or(Declined)?;
    match field {
        FrameField::Track(track) => tag[0] = track.try_into()?,
        FrameField::Presentation(pts) => time[0] = pts,
        FrameField::Decode(dts) => time[1] = dts,
        FrameField::Duration(duration) => tag[2] = duration.try_into()?,
        FrameField::Flag(flag) => tag[1] = flag.try_into()?,
        FrameField::Number(number) => tag[3] = number.try_into()?,
        FrameField::Group(number) => tag[4] = number.try_into()?,
    }
    Ok(())
}
