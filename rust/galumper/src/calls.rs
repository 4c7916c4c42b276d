//! The calls, in place on a buffer: each hands its head and arrays to a function of the library,
//! and keeps the head that this answers.

use crate::buffer::{Buffer, Offered, SIZE};
use crate::foreign::{self, Answer, Answered};
use crate::lists::{Fate, Range};
use crate::names::{Kind, Mode, Refusal};

/// The settings as they are read back: each double as it was given. Where an append in sequence
/// mode has set the timestamp offset, it is its microseconds divided by 1,000,000.
#[derive(Clone, Copy, Debug, PartialEq)]
pub struct Reading {
    /// The timestamp offset.
    pub offset: f64,
    /// The append window's start.
    pub start: f64,
    /// The append window's end, if there is one.
    pub end: Option<f64>,
}

/// Whether the library that is linked belongs to this crate. A creation asks it too; a program that
/// loads buffers, or lists a segment, takes a lump or feeds a decoder before it creates one, asks it
/// first.
pub fn matches() -> bool {
    // SAFETY: the functions take nothing, and answer a number each.
    let (abi, size) = unsafe { (foreign::galumper_abi(), foreign::galumper_size()) };
    (abi, size) == (foreign::ABI, SIZE)
}

/// Creates a buffer with a track for each kind.
///
/// # Errors
///
/// [`Refusal::Kinds`].
///
/// # Panics
///
/// Where the library that is linked does not belong to this crate: see [`matches()`].
pub fn create(kinds: &[Kind]) -> Result<Box<Buffer>, Refusal> {
    assert!(
        matches(),
        "libgalumper.a has another layout than the crate galumper: they do not belong together"
    );
    let mut buffer = Buffer::zeroed();
    let Buffer { times, tags, .. } = &mut *buffer;
    // SAFETY: pointer and length are those of a slice.
    let answered =
        unsafe { foreign::galumper_lent_create(kinds.as_ptr(), kinds.len(), times, tags) };
    buffer.keep(answered)?;
    Ok(buffer)
}

impl Buffer {
    /// Appends a frame. A frame that is dropped, and each stored frame that is lost, is told on a
    /// line of `fates`; gives the count of lines.
    ///
    /// # Errors
    ///
    /// The first of these that applies: [`Refusal::IllFormed`], [`Refusal::ShortFates`],
    /// [`Refusal::NoTrack`], [`Refusal::FrameLimits`], [`Refusal::LastNumber`] for the frame's
    /// number, [`Refusal::ResultLimits`], [`Refusal::LastNumber`] for the group that a frame begins
    /// which breaks off from its track, [`Refusal::Full`].
    pub fn append(&mut self, offered: Offered, fates: &mut [Fate]) -> Result<usize, Refusal> {
        let Self { head, times, tags } = self;
        let (lines, length) = (fates.as_mut_ptr(), fates.len());
        // SAFETY: pointer and length are those of a slice.
        let answered =
            unsafe { foreign::galumper_lent_append(*head, offered, times, tags, lines, length) };
        self.keep(answered)
    }

    /// Removes, on each track, the frames that begin from `start` up to the first random access
    /// point at or after `end` (in seconds), and the frames that depend on them; where there is no
    /// such point, or `end` is plus infinity, all from `start` on. Where a frame with its track's
    /// last decode timestamp goes, the next group begins, and every track waits for a random access
    /// point. Gives the count of fate lines.
    ///
    /// # Errors
    ///
    /// The first of these that applies: [`Refusal::IllFormed`], [`Refusal::ShortFates`],
    /// [`Refusal::Seconds`], [`Refusal::Order`], [`Refusal::LastNumber`].
    pub fn remove(&mut self, start: f64, end: f64, fates: &mut [Fate]) -> Result<usize, Refusal> {
        let Self { head, times, tags } = self;
        let (lines, length) = (fates.as_mut_ptr(), fates.len());
        // SAFETY: pointer and length are those of a slice.
        let answered =
            unsafe { foreign::galumper_lent_remove(*head, start, end, times, tags, lines, length) };
        self.keep(answered)
    }

    /// Aborts: the next group begins, also where nothing was appended to this one, every track waits
    /// for a random access point, the append window is from 0 on without an end, and the timestamp
    /// offset stays.
    ///
    /// # Errors
    ///
    /// The first of these that applies: [`Refusal::IllFormed`], [`Refusal::LastNumber`].
    pub fn abort(&mut self) -> Result<(), Refusal> {
        let Self { head, times, tags } = self;
        // SAFETY: the function takes numbers, and reads the arrays.
        let answered = unsafe { foreign::galumper_lent_abort(*head, times, tags) };
        self.keep(answered).map(drop)
    }

    /// Sets the mode.
    ///
    /// # Errors
    ///
    /// [`Refusal::IllFormed`].
    pub fn set_mode(&mut self, mode: Mode) -> Result<(), Refusal> {
        let set = match mode {
            Mode::Segments => foreign::galumper_lent_set_segments,
            Mode::Sequence => foreign::galumper_lent_set_sequence,
        };
        let Self { head, times, tags } = self;
        // SAFETY: the function takes numbers, and reads the arrays.
        let answered = unsafe { set(*head, times, tags) };
        self.keep(answered).map(drop)
    }

    /// Sets the timestamp offset.
    ///
    /// # Errors
    ///
    /// The first of these that applies: [`Refusal::IllFormed`], [`Refusal::Seconds`].
    pub fn set_offset(&mut self, seconds: f64) -> Result<(), Refusal> {
        let Self { head, times, tags } = self;
        // SAFETY: the function takes numbers, and reads the arrays.
        let answered = unsafe { foreign::galumper_lent_set_offset(*head, times, tags, seconds) };
        self.keep(answered).map(drop)
    }

    /// Sets the append window's start.
    ///
    /// # Errors
    ///
    /// The first of these that applies: [`Refusal::IllFormed`], [`Refusal::Seconds`],
    /// [`Refusal::Order`].
    pub fn set_window_start(&mut self, seconds: f64) -> Result<(), Refusal> {
        let Self { head, times, tags } = self;
        // SAFETY: the function takes numbers, and reads the arrays.
        let answered =
            unsafe { foreign::galumper_lent_set_window_start(*head, times, tags, seconds) };
        self.keep(answered).map(drop)
    }

    /// Sets the append window's end; plus infinity makes it unbounded.
    ///
    /// # Errors
    ///
    /// The first of these that applies: [`Refusal::IllFormed`], [`Refusal::Seconds`],
    /// [`Refusal::Order`].
    pub fn set_window_end(&mut self, seconds: f64) -> Result<(), Refusal> {
        let Self { head, times, tags } = self;
        // SAFETY: the function takes numbers, and reads the arrays.
        let answered =
            unsafe { foreign::galumper_lent_set_window_end(*head, times, tags, seconds) };
        self.keep(answered).map(drop)
    }

    /// Reads the settings back.
    ///
    /// # Errors
    ///
    /// [`Refusal::IllFormed`].
    pub fn read_settings(&self) -> Result<Reading, Refusal> {
        let Self { head, times, tags } = self;
        // SAFETY: the function takes numbers, and reads the arrays.
        let reading = unsafe { foreign::galumper_lent_read_settings(*head, times, tags) };
        done(reading.refusal)?;
        Ok(Reading {
            offset: reading.offset,
            start: reading.start,
            end: (reading.bounded == 1).then_some(reading.end),
        })
    }

    /// Writes the ranges that a track's frames cover, in rising order; gives their count. An
    /// instant is in one of them exactly when a stored frame covers it.
    ///
    /// # Errors
    ///
    /// The first of these that applies: [`Refusal::IllFormed`], [`Refusal::NoTrack`],
    /// [`Refusal::ShortList`].
    pub fn track_ranges(&self, track: u32, list: &mut [Range]) -> Result<usize, Refusal> {
        let Self { head, times, tags } = self;
        let (ranges, places) = (list.as_mut_ptr(), list.len());
        // SAFETY: pointer and length are those of a slice.
        counted(unsafe {
            foreign::galumper_lent_track_ranges(*head, times, tags, track, ranges, places)
        })
    }

    /// Writes the ranges that are covered on every track, in rising order; gives their count.
    ///
    /// # Errors
    ///
    /// The first of these that applies: [`Refusal::IllFormed`], [`Refusal::ShortList`].
    pub fn common_ranges(&self, list: &mut [Range]) -> Result<usize, Refusal> {
        let Self { head, times, tags } = self;
        let (ranges, places) = (list.as_mut_ptr(), list.len());
        // SAFETY: pointer and length are those of a slice.
        counted(unsafe { foreign::galumper_lent_common_ranges(*head, times, tags, ranges, places) })
    }

    /// How many of a track's frames [`Buffer::track_ranges`] takes, in presentation order, into a list
    /// of so many places: all of them, or where there is one range too many, those up to and with the
    /// first frame of that range. It is told also where the report itself is refused by
    /// [`Refusal::ShortList`].
    ///
    /// # Errors
    ///
    /// The first of these that applies: [`Refusal::IllFormed`], [`Refusal::NoTrack`].
    pub fn walked(&self, track: u32, places: usize) -> Result<usize, Refusal> {
        let Self { head, times, tags } = self;
        // SAFETY: the function takes numbers, and reads the arrays.
        counted(unsafe { foreign::galumper_lent_walked(*head, times, tags, track, places) })
    }

    /// Keeps the head that a function answered, unless it refused; gives the count.
    fn keep(&mut self, answered: Answered) -> Result<usize, Refusal> {
        let count = counted(answered.answer)?;
        self.head = answered.head;
        Ok(count)
    }
}

pub(crate) fn counted(answer: Answer) -> Result<usize, Refusal> {
    done(answer.refusal).map(|()| answer.count)
}

pub(crate) fn done(refusal: u32) -> Result<(), Refusal> {
    match refusal {
        0 => Ok(()),
        number => Err(Refusal::answered(number)),
    }
}
