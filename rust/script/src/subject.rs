//! What an implementation must offer to be driven by scripts, and how `second` offers it.

use std::fmt::Debug;
use std::num::TryFromIntError;

use second::{
    CutHeader, Fate, Feed, LumpFragment, LumpPlace, LumpReader, Maybe, Mode, Offered, Reading,
    Refusal, Row, SegmentTrack, Start, State, Stretch, Trace, FRAME_PLACES, LUMP_BYTES,
    TRACK_PLACES,
};

use crate::batch::Batch;
use crate::place::Place;
use crate::poke::{FrameField, Poke, TrackField};

/// An implementation of the buffer. A refusal is its number, as one never heard of must be shown
/// as well.
pub trait Subject {
    /// The buffer, a plain value.
    type State: Clone;
    /// A line of the fate lists that it is lent.
    type Fate: Place<u32, 2>;
    /// A place of the range lists that it is lent.
    type Stretch: Place<i64, 2>;
    /// A place of the frame lists that it is lent, to be read or to be written: track, presentation
    /// time, decode time, duration, flag, size.
    type Row: Place<i64, 6>;
    /// The reader of a segment that comes in lumps, a plain value. The default is a fresh one.
    type Reader: Clone + Default + PartialEq + Debug;

    /// Creates a buffer.
    fn create(&mut self, kinds: &[u32]) -> Result<Self::State, u32>;
    /// Appends a frame.
    fn append(
        &mut self,
        state: &mut Self::State,
        offered: &Offered,
        fates: &mut [Self::Fate],
    ) -> Result<usize, u32>;
    /// Appends a list of frames.
    fn append_batch(
        &mut self,
        state: &mut Self::State,
        frames: &[Self::Row],
        fates: &mut [Self::Fate],
    ) -> Result<Batch, u32>;
    /// Removes a stretch of time.
    fn remove(
        &mut self,
        state: &mut Self::State,
        start: f64,
        end: f64,
        fates: &mut [Self::Fate],
    ) -> Result<usize, u32>;
    /// Aborts.
    fn abort(&mut self, state: &mut Self::State) -> Result<(), u32>;
    /// Sets the mode.
    fn set_mode(&mut self, state: &mut Self::State, mode: Mode) -> Result<(), u32>;
    /// Sets the offset.
    fn set_offset(&mut self, state: &mut Self::State, seconds: f64) -> Result<(), u32>;
    /// Sets the window start.
    fn set_window_start(&mut self, state: &mut Self::State, seconds: f64) -> Result<(), u32>;
    /// Sets the window end.
    fn set_window_end(&mut self, state: &mut Self::State, seconds: f64) -> Result<(), u32>;
    /// Reads the settings back.
    fn read_settings(&mut self, state: &Self::State) -> Result<Reading, u32>;
    /// Reports a track's ranges.
    fn track_ranges(
        &mut self,
        state: &Self::State,
        track: u32,
        list: &mut [Self::Stretch],
    ) -> Result<usize, u32>;
    /// Reports the ranges common to all tracks.
    fn common_ranges(
        &mut self,
        state: &Self::State,
        list: &mut [Self::Stretch],
    ) -> Result<usize, u32>;
    /// Counts the frames that a track's report takes, into a list of so many places.
    fn walked(&mut self, state: &Self::State, track: u32, places: usize) -> Result<usize, u32>;
    /// Finds where to start decoding for a track and an instant.
    fn seek(&mut self, state: &Self::State, track: u32, instant: i64) -> Result<Start, u32>;
    /// Lists a track's frames from a segment. No buffer takes part in it.
    fn list_segment(
        &mut self,
        of: SegmentTrack,
        segment: &[u8],
        list: &mut [Self::Row],
    ) -> Result<usize, u32>;
    /// Takes a lump of a segment, and where it is the last lists a track's frames. No buffer of frames
    /// takes part in it.
    fn take_lump(
        &mut self,
        reader: &mut Self::Reader,
        of: SegmentTrack,
        buffer: &mut [u8],
        lump: &[u8],
        last: bool,
        list: &mut [Self::Row],
    ) -> Result<usize, u32>;
    /// Picks what to feed, of initialization bytes and a segment. No buffer takes part in it.
    fn feed<'a>(&mut self, initialization: &'a [u8], segment: &'a [u8], feed: Feed) -> &'a [u8];

    /// The state as it lies, in the words of `second`; not a call of the buffer.
    fn view(&self, state: &Self::State) -> State;
    /// Writes one field of the state as it lies; not a call of the buffer.
    fn poke(&mut self, state: &mut Self::State, poke: &Poke) -> Result<(), Declined>;
    /// Readers that no call hands out, made of one that a call did; none where they cannot be made.
    /// Not a call of the buffer.
    fn damaged_readers(&self, _reader: &Self::Reader) -> Vec<Self::Reader> {
        Vec::new()
    }
}

/// A state cannot hold what a poke asks.
#[derive(Clone, Copy, Debug, PartialEq, Eq)]
pub struct Declined;

impl From<TryFromIntError> for Declined {
    fn from(_: TryFromIntError) -> Self {
        Self
    }
}

/// The crate `second`, with the trace that hears its branches.
#[derive(Clone, Debug, Default)]
pub struct Second<T = ()> {
    /// The trace.
    pub trace: T,
}

fn numbered<A>(result: Result<A, Refusal>) -> Result<A, u32> {
    result.map_err(Refusal::number)
}

impl<T: Trace> Subject for Second<T> {
    type State = State;
    type Fate = Fate;
    type Stretch = Stretch;
    type Row = Row;
    type Reader = LumpReader;

    fn create(&mut self, kinds: &[u32]) -> Result<State, u32> {
        numbered(second::create(kinds))
    }

    fn append(
        &mut self,
        state: &mut State,
        offered: &Offered,
        fates: &mut [Fate],
    ) -> Result<usize, u32> {
        numbered(second::append_traced(
            state,
            offered,
            fates,
            &mut self.trace,
        ))
    }

    fn append_batch(
        &mut self,
        state: &mut State,
        frames: &[Row],
        fates: &mut [Fate],
    ) -> Result<Batch, u32> {
        let batch = second::append_batch_traced(state, frames, fates, &mut self.trace);
        let batch = numbered(batch)?;
        Ok(Batch {
            accepted: batch.accepted,
            stop: batch.stop.map(Refusal::number),
            lines: batch.lines,
        })
    }

    fn remove(
        &mut self,
        state: &mut State,
        start: f64,
        end: f64,
        fates: &mut [Fate],
    ) -> Result<usize, u32> {
        numbered(second::remove_traced(
            state,
            start,
            end,
            fates,
            &mut self.trace,
        ))
    }

    fn abort(&mut self, state: &mut State) -> Result<(), u32> {
        numbered(second::abort(state))
    }

    fn set_mode(&mut self, state: &mut State, mode: Mode) -> Result<(), u32> {
        numbered(second::set_mode(state, mode))
    }

    fn set_offset(&mut self, state: &mut State, seconds: f64) -> Result<(), u32> {
        numbered(second::set_offset(state, seconds))
    }

    fn set_window_start(&mut self, state: &mut State, seconds: f64) -> Result<(), u32> {
        numbered(second::set_window_start(state, seconds))
    }

    fn set_window_end(&mut self, state: &mut State, seconds: f64) -> Result<(), u32> {
        numbered(second::set_window_end(state, seconds))
    }

    fn read_settings(&mut self, state: &State) -> Result<Reading, u32> {
        numbered(second::read_settings(state))
    }

    fn track_ranges(
        &mut self,
        state: &State,
        track: u32,
        list: &mut [Stretch],
    ) -> Result<usize, u32> {
        numbered(second::track_ranges(state, track, list))
    }

    fn common_ranges(&mut self, state: &State, list: &mut [Stretch]) -> Result<usize, u32> {
        numbered(second::common_ranges(state, list))
    }

    fn walked(&mut self, state: &State, track: u32, places: usize) -> Result<usize, u32> {
        numbered(second::walked(state, track, places))
    }

    fn seek(&mut self, state: &State, track: u32, instant: i64) -> Result<Start, u32> {
        numbered(second::seek_traced(state, track, instant, &mut self.trace))
    }

    fn list_segment(
        &mut self,
        of: SegmentTrack,
        segment: &[u8],
        list: &mut [Row],
    ) -> Result<usize, u32> {
        numbered(second::list_segment_traced(
            of,
            segment,
            list,
            &mut self.trace,
        ))
    }

    fn take_lump(
        &mut self,
        reader: &mut LumpReader,
        of: SegmentTrack,
        buffer: &mut [u8],
        lump: &[u8],
        last: bool,
        list: &mut [Row],
    ) -> Result<usize, u32> {
        numbered(second::take_lump_traced(
            of,
            reader,
            buffer,
            lump,
            last,
            list,
            &mut self.trace,
        ))
    }

    fn feed<'a>(&mut self, initialization: &'a [u8], segment: &'a [u8], feed: Feed) -> &'a [u8] {
        second::feed_traced(initialization, segment, feed, &mut self.trace)
    }

    fn view(&self, state: &State) -> State {
        *state
    }

    fn poke(&mut self, state: &mut State, poke: &Poke) -> Result<(), Declined> {
        let head = &mut state.head;
        let settings = &mut head.settings;
        match *poke {
            Poke::LastNumber(number) => head.last_number = number.try_into()?,
            Poke::Group(number) => head.group = number.try_into()?,
            Poke::Mode(mode) => head.mode = mode,
            Poke::GroupStart(start) => head.group_start = start,
            Poke::GroupEnd(end) => head.group_end = end,
            Poke::OffsetMicros(micros) => settings.offset.micros = micros,
            Poke::OffsetDouble(double) => settings.offset.double = double,
            Poke::WindowStartMicros(micros) => settings.window_start.micros = micros,
            Poke::WindowStartDouble(double) => settings.window_start.double = double,
            Poke::WindowEndMicros(Maybe { set, value }) => {
                settings.window_end.bounded = set;
                settings.window_end.time.micros = value;
            }
            Poke::WindowEndDouble(double) => settings.window_end.time.double = double,
            Poke::Tracks(count) => head.track_count = count.try_into()?,
            Poke::Track(place, field) => poke_track(&mut head.tracks, place, field)?,
            Poke::Frames(count) => state.frame_count = count.try_into()?,
            Poke::Frame(place, field) => poke_frame(&mut state.frames, place, field)?,
        }
        Ok(())
    }

    fn damaged_readers(&self, reader: &LumpReader) -> Vec<LumpReader> {
        let at = |place| LumpReader { place, ..*reader };
        let with = |place, fragment| LumpReader { place, fragment };
        let header = |bytes, count| LumpPlace::Header(CutHeader { bytes, count });
        let body = |left, kept| LumpPlace::Body { left, kept };
        let full = LUMP_BYTES - 8; // the body of the largest movie fragment
        vec![
            at(header([0; 16], 16)),
            at(header([0; 16], 8)),
            at(header([1; 16], 1)),
            at(body(0, false)),
            with(body(1, true), LumpFragment::None),
            with(body(1, true), LumpFragment::Several),
            with(body(1, true), LumpFragment::One(full)),
            with(reader.place, LumpFragment::One(full + 1)),
        ]
    }
}

fn poke_track(
    tracks: &mut [second::Track; TRACK_PLACES],
    place: usize,
    field: TrackField,
) -> Result<(), Declined> {
    let track = tracks.get_mut(place).ok_or(Declined)?;
    match field {
        TrackField::Kind(kind) => track.kind = kind.try_into()?,
        TrackField::LastDecode(time) => track.last_decode = time,
        TrackField::LastDuration(duration) => track.last_duration = duration,
        TrackField::HighestEnd(time) => track.highest_end = time,
        TrackField::Need(need) => track.need_random_access = need,
    }
    Ok(())
}

fn poke_frame(
    frames: &mut [second::Frame; FRAME_PLACES],
    place: usize,
    field: FrameField,
) -> Result<(), Declined> {
    let frame = frames.get_mut(place).ok_or(Declined)?;
    match field {
        FrameField::Track(track) => frame.track = track.try_into()?,
        FrameField::Presentation(time) => frame.pts = time,
        FrameField::Decode(time) => frame.dts = time,
        FrameField::Duration(duration) => frame.duration = duration.try_into()?,
        FrameField::Flag(flag) => {
            frame.flagged = match flag {
                0 => false,
                1 => true,
                _ => return Err(Declined),
            }
        }
        FrameField::Number(number) => frame.number = number.try_into()?,
        FrameField::Group(number) => frame.group = number.try_into()?,
    }
    Ok(())
}
