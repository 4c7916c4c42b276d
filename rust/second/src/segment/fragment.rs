//! The one movie fragment, and what stands in its track fragments. Refusal 12, and no other.

use super::boxes::{malformed, Boxes};
use super::header::{DecodeTimes, Defaults, Header};
use super::rows::SegmentTrack;
use super::run::Run;
use crate::refusal::Refusal;
use crate::trace::{Parent, SegmentBranch, Trace};

/// A fragment of the track that is listed.
pub(super) struct TrackFragment<'a> {
    /// The decode time of its first sample.
    pub(super) decode: u64,
    /// What holds for samples of which a run does not say it.
    pub(super) defaults: Defaults,
    /// Its runs, in file order.
    pub(super) runs: Vec<Run<'a>>,
}

/// The fragments of a track in a movie fragment's body, in file order. The framing of every box in
/// the movie fragment and in each track fragment has been judged then.
pub(super) fn track_fragments<'a, T: Trace>(
    of: SegmentTrack,
    movie_fragment: &'a [u8],
    trace: &mut T,
) -> Result<Vec<TrackFragment<'a>>, Refusal> {
    let mut fragments = Vec::new();
    let mut boxes = Boxes::of(movie_fragment, Parent::MovieFragment);
    while let Some((kind, body)) = boxes.next(trace)? {
        match &kind {
            b"traf" => fragments.extend(track_fragment(of, body, trace)?),
            _ => trace.segment(SegmentBranch::SkippedInMovieFragment),
        }
    }
    Ok(fragments)
}

/// The body of the movie fragment, of which a segment has exactly one. The framing of every box in
/// the segment has been judged then.
pub(super) fn movie_fragment<'a, T: Trace>(
    segment: &'a [u8],
    trace: &mut T,
) -> Result<&'a [u8], Refusal> {
    let mut found = None;
    let mut boxes = Boxes::of(segment, Parent::Segment);
    while let Some((kind, body)) = boxes.next(trace)? {
        match &kind {
            b"moof" if found.is_some() => {
                return Err(malformed(SegmentBranch::MovieFragmentDoubled, trace));
            }
            b"moof" => found = Some(body),
            _ => trace.segment(SegmentBranch::SkippedInSegment),
        }
    }
    found.ok_or_else(|| malformed(SegmentBranch::MovieFragmentMissing, trace))
}

/// A track fragment, or nothing if it is another track's. Any has one header, before its runs; one
/// of this track has one decode time, before its runs, which may stand before the header. So the
/// body of a decode time is kept until the track is known, and of another track's left unread.
fn track_fragment<'a, T: Trace>(
    of: SegmentTrack,
    body: &'a [u8],
    trace: &mut T,
) -> Result<Option<TrackFragment<'a>>, Refusal> {
    let mut header: Option<Header> = None;
    let mut decode_times = DecodeTimes::None;
    let mut runs = Vec::new();
    let mut boxes = Boxes::of(body, Parent::TrackFragment);
    while let Some((kind, body)) = boxes.next(trace)? {
        match (&kind, &header) {
            (b"tfhd", Some(_)) => return Err(malformed(SegmentBranch::HeaderDoubled, trace)),
            (b"tfhd", None) => header = Some(Header::read(of, body, trace)?),
            (b"tfdt", _) => {
                if header.is_none() {
                    trace.segment(SegmentBranch::DecodeTimeBeforeHeader);
                }
                decode_times = decode_times.and(body);
            }
            (b"trun", None) => return Err(malformed(SegmentBranch::RunBeforeHeader, trace)),
            (b"trun", Some(header)) if header.id != of.id => {
                trace.segment(SegmentBranch::OthersRun);
            }
            (b"trun", Some(_)) => {
                if matches!(decode_times, DecodeTimes::None) {
                    return Err(malformed(SegmentBranch::RunBeforeDecodeTime, trace));
                }
                runs.push(Run::read(body, trace)?);
            }
            _ => trace.segment(SegmentBranch::SkippedInTrackFragment),
        }
    }
    let header = header.ok_or_else(|| malformed(SegmentBranch::HeaderMissing, trace))?;
    if header.id != of.id {
        trace.segment(match decode_times {
            DecodeTimes::Several => SegmentBranch::OthersDecodeTimeDoubled,
            _ => SegmentBranch::OthersFragment,
        });
        return Ok(None);
    }
    let decode = decode_times.read(trace)?;
    if runs.is_empty() {
        trace.segment(SegmentBranch::NoRuns);
    }
    Ok(Some(TrackFragment {
        decode,
        defaults: header.defaults,
        runs,
    }))
}
