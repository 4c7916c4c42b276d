//! The samples of the runs, their times in microseconds, and refusal 4.

use std::iter;

use super::fragment::TrackFragment;
use super::header::Defaults;
use super::rows::{Row, SegmentTrack, FINEST_TIMESCALE};
use super::run::Run;
use crate::numbers::{frame_duration, offered_time, MICROS_PER_SECOND, OFFERED_LIMIT};
use crate::refusal::Refusal;
use crate::trace::{SegmentBranch, Trace};

/// The flag of a sample that is no random access point.
const NON_SYNC: u32 = 0x1_0000;

/// A decode time above this is beyond the limit at every timescale; below it, all arithmetic on a
/// sample fits 64 bits, as durations and composition offsets have 32.
const LATEST: u64 = OFFERED_LIMIT as u64 / MICROS_PER_SECOND as u64 * FINEST_TIMESCALE as u64;

/// A sample as its run has it, in units of the timescale.
struct Sample {
    duration: u32,
    size: u32,
    flags: u32,
    offset: i64,
}

/// The rows of all frames, or refusal 4. There are `count` of them.
pub(super) fn rows<T: Trace>(
    of: SegmentTrack,
    fragments: &[TrackFragment],
    count: usize,
    trace: &mut T,
) -> Result<Vec<Row>, Refusal> {
    let mut rows = Vec::with_capacity(count);
    for fragment in fragments {
        let mut decode = fragment.decode;
        for run in &fragment.runs {
            walk(of, fragment.defaults, run, &mut decode, trace, |row| {
                rows.push(row)
            })?;
        }
    }
    Ok(rows)
}

/// Refusal 4 alone, for runs that may announce far more samples than the list has places: a run
/// without columns is judged as one.
pub(super) fn judge<T: Trace>(
    of: SegmentTrack,
    fragments: &[TrackFragment],
    trace: &mut T,
) -> Result<(), Refusal> {
    for fragment in fragments {
        let mut decode = fragment.decode;
        for run in &fragment.runs {
            match run.columns.width() {
                0 => judge_even(of, fragment.defaults, run, &mut decode, trace)?,
                _ => walk(of, fragment.defaults, run, &mut decode, trace, |_| ())?,
            }
        }
    }
    Ok(())
}

/// Hands the row of each sample of a run on, or gives refusal 4 at the first that is outside its
/// limits; moves the decode time past the run.
fn walk<T: Trace>(
    of: SegmentTrack,
    defaults: Defaults,
    run: &Run,
    decode: &mut u64,
    trace: &mut T,
    mut each: impl FnMut(Row),
) -> Result<(), Refusal> {
    let mut numbers = run.numbers.iter().copied().map(u32::from_be_bytes);
    for place in 0..run.count {
        if *decode > LATEST {
            trace.segment(SegmentBranch::DecodeBeyondAll);
            return Err(Refusal::OfferedLimits);
        }
        let sample = sample(defaults, run, place, &mut numbers, trace);
        let row = row(of, *decode as i64, &sample);
        check(&row, trace)?;
        each(row);
        *decode += u64::from(sample.duration);
    }
    Ok(())
}

/// The next sample of a run: its own number where there is such a column, else the default. First
/// flags are the first sample's even if it has its own.
fn sample<T: Trace>(
    defaults: Defaults,
    run: &Run,
    place: u32,
    numbers: &mut impl Iterator<Item = u32>,
    trace: &mut T,
) -> Sample {
    let mut column = |there: bool, default: u32| match there {
        true => numbers.next().unwrap_or(default),
        false => default,
    };
    let duration = column(run.columns.duration, defaults.duration);
    let size = column(run.columns.size, defaults.size);
    let own = column(run.columns.flags, defaults.flags);
    let offset = column(run.columns.offset, 0);
    let first = run.first_flags.filter(|_| place == 0);
    let sample = Sample {
        duration,
        size,
        flags: first.unwrap_or(own),
        offset: match run.signed {
            true => i64::from(offset as i32),
            false => i64::from(offset),
        },
    };
    tell(run, first.is_some(), &sample, trace);
    sample
}

/// Tells where the numbers of a sample are from.
fn tell<T: Trace>(run: &Run, first: bool, sample: &Sample, trace: &mut T) {
    trace.segment(match run.columns.duration {
        true => SegmentBranch::DurationOwn,
        false => SegmentBranch::DurationDefault,
    });
    trace.segment(match run.columns.size {
        true => SegmentBranch::SizeOwn,
        false => SegmentBranch::SizeDefault,
    });
    trace.segment(match (first, run.columns.flags) {
        (true, true) => SegmentBranch::FirstFlagsOverOwn,
        (true, false) => SegmentBranch::FirstFlagsOverDefault,
        (false, true) => SegmentBranch::FlagsOwn,
        (false, false) => SegmentBranch::FlagsDefault,
    });
    trace.segment(match (run.columns.offset, run.signed, sample.offset < 0) {
        (false, ..) => SegmentBranch::OffsetNone,
        (true, false, _) => SegmentBranch::OffsetUnsigned,
        (true, true, false) => SegmentBranch::OffsetSigned,
        (true, true, true) => SegmentBranch::OffsetBelow,
    });
}

/// A sample's row. The end is converted as the presentation time is, and the duration is the
/// difference.
fn row(of: SegmentTrack, decode: i64, sample: &Sample) -> Row {
    let presentation = decode + sample.offset;
    let pts = micros(presentation, of.timescale);
    let end = micros(presentation + i64::from(sample.duration), of.timescale);
    [
        i64::from(of.track),
        pts,
        micros(decode, of.timescale),
        end - pts,
        i64::from(sample.flags & NON_SYNC == 0),
        i64::from(sample.size),
    ]
}

/// A media time in microseconds, rounded down, also below zero.
fn micros(time: i64, timescale: u32) -> i64 {
    (time * i64::from(MICROS_PER_SECOND)).div_euclid(i64::from(timescale))
}

/// Refusal 4 of a frame: the limits of one as offered.
fn check<T: Trace>(&[_, pts, dts, duration, ..]: &Row, trace: &mut T) -> Result<(), Refusal> {
    if offered_time(pts) && offered_time(dts) && frame_duration(duration) {
        trace.segment(match pts < 0 {
            true => SegmentBranch::FrameBelowZero,
            false => SegmentBranch::Frame,
        });
        return Ok(());
    }
    trace.segment(match (offered_time(dts), offered_time(pts)) {
        (false, _) => SegmentBranch::DecodeBeyond,
        (true, false) if pts < 0 => SegmentBranch::PresentationBelow,
        (true, false) => SegmentBranch::PresentationBeyond,
        (true, true) if duration == 0 => SegmentBranch::DurationNone,
        (true, true) => SegmentBranch::DurationBeyond,
    });
    Err(Refusal::OfferedLimits)
}

/// Refusal 4 of a run without columns, by its first frame and its last: the times rise, and whether
/// a duration is within its limits does not depend on where it falls, as these are whole units at
/// every timescale (a unit is a microsecond or more, and 10 seconds are 10 timescales).
fn judge_even<T: Trace>(
    of: SegmentTrack,
    defaults: Defaults,
    run: &Run,
    decode: &mut u64,
    trace: &mut T,
) -> Result<(), Refusal> {
    let Some(steps) = run.count.checked_sub(1) else {
        return Ok(());
    };
    let step = u64::from(defaults.duration);
    let last = decode.saturating_add(u64::from(steps) * step);
    for time in [*decode, last] {
        if time > LATEST {
            trace.segment(SegmentBranch::EvenBeyondAll);
            return Err(Refusal::OfferedLimits);
        }
        let sample = sample(defaults, run, 0, &mut iter::empty(), trace);
        check(&row(of, time as i64, &sample), trace)?;
    }
    trace.segment(SegmentBranch::Even);
    *decode = last + step;
    Ok(())
}
