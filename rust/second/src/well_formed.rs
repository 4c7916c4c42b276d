//! "Well-formed state": the test that every call begins with.

use crate::fault::Fault;
use crate::numbers::{frame_duration, micros, quotient, result_time};
use crate::refusal::Refusal;
use crate::seconds::{End, Seconds, Settings};
use crate::state::{Frame, Head, Maybe, State, Track, LAST_KIND};
use crate::trace::Trace;

/// Refusal 1.
pub(crate) fn check(state: &State) -> Result<(), Refusal> {
    check_traced(state, &mut ())
}

/// [`check`], telling what the state fails.
pub(crate) fn check_traced<T: Trace>(state: &State, trace: &mut T) -> Result<(), Refusal> {
    well_formed(state).map_err(|fault| {
        trace.fault(fault);
        Refusal::IllFormed
    })
}

/// The whole test.
pub fn well_formed(state: &State) -> Result<(), Fault> {
    tracks(&state.head)?;
    group(&state.head)?;
    settings(&state.head.settings)?;
    frames(state)
}

fn ensure(holds: bool, fault: Fault) -> Result<(), Fault> {
    if holds {
        Ok(())
    } else {
        Err(fault)
    }
}

/// A number that is unset is kept as zero.
fn kept(number: Maybe) -> bool {
    number.set || number.value == 0
}

fn tracks(head: &Head) -> Result<(), Fault> {
    let (used, free) = head
        .tracks
        .split_at_checked(head.track_count)
        .filter(|(used, _)| !used.is_empty())
        .ok_or(Fault::TrackCount)?;
    used.iter().try_for_each(track)?;
    ensure(
        free.iter().all(|place| *place == Track::default()),
        Fault::TrackPlace,
    )
}

fn track(track: &Track) -> Result<(), Fault> {
    ensure(track.kind <= LAST_KIND, Fault::Kind)?;
    let three = [track.last_decode, track.last_duration, track.highest_end];
    ensure(three.into_iter().all(kept), Fault::TrackUnset)?;
    match three.map(Maybe::get) {
        [None, None, None] => Ok(()),
        [Some(decode), Some(duration), Some(end)] => {
            ensure(result_time(decode), Fault::LastDecode)?;
            ensure(frame_duration(duration), Fault::LastDuration)?;
            ensure(result_time(end), Fault::HighestEnd)
        }
        _ => Err(Fault::PartlySet),
    }
}

fn group(head: &Head) -> Result<(), Fault> {
    ensure(kept(head.group_start), Fault::GroupStartUnset)?;
    ensure(result_time(head.group_start.value), Fault::GroupStart)?;
    ensure(result_time(head.group_end), Fault::GroupEnd)
}

fn settings(settings: &Settings) -> Result<(), Fault> {
    let Settings {
        offset,
        window_start,
        window_end,
    } = settings;
    ensure(result_time(offset.micros), Fault::Offset)?;
    ensure(converts(offset) || divides(offset), Fault::OffsetDouble)?;
    ensure(window_start.micros >= 0, Fault::WindowStart)?;
    ensure(converts(window_start), Fault::WindowStartDouble)?;
    if window_end.bounded {
        ensure(converts(&window_end.time), Fault::WindowEndDouble)?;
        ensure(window_end.is_after(window_start.micros), Fault::WindowOrder)
    } else {
        ensure(*window_end == End::default(), Fault::WindowEndUnset)
    }
}

/// The double converts to its microseconds.
fn converts(time: &Seconds) -> bool {
    micros(time.double) == Some(time.micros)
}

/// The double is the quotient that step 1 keeps.
fn divides(time: &Seconds) -> bool {
    time.double.to_bits() == quotient(time.micros).to_bits()
}

fn frames(state: &State) -> Result<(), Fault> {
    let (stored, free) = state
        .frames
        .split_at_checked(state.frame_count)
        .ok_or(Fault::FrameCount)?;
    let mut rising = true;
    let mut last = &Frame::default(); // its track 0 stands before all
    for next in stored {
        frame(next, &state.head)?;
        ensure(key(last) < key(next), Fault::FrameOrder)?;
        rising &= last.number < next.number;
        last = next;
    }
    ensure(rising || distinct(stored), Fault::FrameTwice)?;
    ensure(free.iter().all(is_zero), Fault::FramePlace)
}

/// Asked of up to 1,024 places in every call, so without a branch for each field.
fn is_zero(place: &Frame) -> bool {
    let times = place.pts | place.dts;
    let tags = place.track | place.number | place.duration | place.group;
    times | i64::from(tags | u32::from(place.flagged)) == 0
}

/// Store order.
fn key(frame: &Frame) -> (u32, i64, u32) {
    (frame.track, frame.dts, frame.number)
}

fn frame(frame: &Frame, head: &Head) -> Result<(), Fault> {
    ensure(
        head.track_numbers().contains(&frame.track),
        Fault::FrameTrack,
    )?;
    ensure(
        (1..=head.last_number).contains(&frame.number),
        Fault::FrameNumber,
    )?;
    ensure(frame.group <= head.group, Fault::FrameGroup)?;
    ensure(
        frame.pts >= 0 && result_time(frame.pts),
        Fault::FramePresentation,
    )?;
    ensure(result_time(frame.dts), Fault::FrameDecode)?;
    ensure(
        frame_duration(i64::from(frame.duration)),
        Fault::FrameDuration,
    )?;
    ensure(result_time(frame.end()), Fault::FrameEnd)
}

/// Whether no number is there twice. A merge sort, as the numbers are a few rising runs: those of
/// each track, broken where an older stretch of time was filled later.
fn distinct(frames: &[Frame]) -> bool {
    let mut numbers: Vec<u32> = frames.iter().map(|frame| frame.number).collect();
    numbers.sort();
    numbers.is_sorted_by(|a, b| a < b)
}
