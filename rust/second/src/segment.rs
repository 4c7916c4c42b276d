//! Document 02, No. 1, "Read the recorder's segments": the frames of one track, listed from a
//! segment of a fragmented MP4 file (ISO/IEC 14496-12).
//!
//! The order of the refusals is that of the work: all boxes first (12), then every frame (4), then
//! the places of the list (10). Nothing is written before all of them have passed.

pub(crate) mod boxes;
mod fragment;
mod header;
mod rows;
mod run;
mod samples;

use crate::refusal::Refusal;
use crate::trace::{SegmentBranch, Trace};
use fragment::{movie_fragment, track_fragments, TrackFragment};
pub use rows::{Row, SegmentTrack, FINEST_TIMESCALE};

/// Lists a track's frames in file order; gives their count.
pub fn list_segment(of: SegmentTrack, segment: &[u8], list: &mut [Row]) -> Result<usize, Refusal> {
    list_segment_traced(of, segment, list, &mut ())
}

/// [`list_segment`], telling its branches.
pub fn list_segment_traced<T: Trace>(
    of: SegmentTrack,
    segment: &[u8],
    list: &mut [Row],
    trace: &mut T,
) -> Result<usize, Refusal> {
    let movie_fragment = movie_fragment(segment, trace)?;
    list_movie_fragment(of, movie_fragment, list, trace)
}

/// [`list_segment_traced`] of a segment by the body of its movie fragment, where the framing of the
/// boxes beside it has been judged.
pub(crate) fn list_movie_fragment<T: Trace>(
    of: SegmentTrack,
    movie_fragment: &[u8],
    list: &mut [Row],
    trace: &mut T,
) -> Result<usize, Refusal> {
    let fragments = track_fragments(of, movie_fragment, trace)?;
    check_timescale(of.timescale, trace)?;
    let Some(places) = places_for(&fragments, list) else {
        samples::judge(of, &fragments, trace)?;
        trace.segment(SegmentBranch::ListShort);
        return Err(Refusal::ShortList);
    };
    let rows = samples::rows(of, &fragments, places.len(), trace)?;
    places.copy_from_slice(&rows);
    trace.segment(match rows.len() {
        0 => SegmentBranch::ListsNone,
        _ => SegmentBranch::ListsSome,
    });
    Ok(rows.len())
}

/// Refusal 4 of a timescale, also where no frame is listed.
fn check_timescale<T: Trace>(timescale: u32, trace: &mut T) -> Result<(), Refusal> {
    let branch = match timescale {
        0 => SegmentBranch::TimescaleZero,
        1..=FINEST_TIMESCALE => return Ok(()),
        _ => SegmentBranch::TimescaleAbove,
    };
    trace.segment(branch);
    Err(Refusal::OfferedLimits)
}

/// The places for all frames that the runs announce, if the list has so many.
fn places_for<'l>(fragments: &[TrackFragment], list: &'l mut [Row]) -> Option<&'l mut [Row]> {
    let runs = fragments.iter().flat_map(|fragment| &fragment.runs);
    let count: u128 = runs.map(|run| u128::from(run.count)).sum();
    list.get_mut(..usize::try_from(count).ok()?)
}
