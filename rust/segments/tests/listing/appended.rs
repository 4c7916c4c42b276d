//! From bytes to the buffer: the rows that are listed of a segment go into a fresh buffer as they
//! are, 64 at a time, and what it holds then is what ffprobe tells of the file.

use galumper::{
    Cause, Fate, Kind, ListedFrame, Range, SegmentTrack, BATCH, BATCH_FATES, PLACES, RANGES,
};

use crate::told::cases;

/// What becomes of a track's frames in a buffer.
#[derive(Debug, PartialEq)]
struct Appended {
    /// How many are stored.
    held: usize,
    /// The fate lines of the others.
    lines: Vec<Fate>,
    ranges: Vec<Range>,
}

/// What the library makes of a track of a segment.
fn appended(of: SegmentTrack, segment: &[u8]) -> Appended {
    let mut rows = [ListedFrame::default(); PLACES];
    let count = galumper::list_segment(of, segment, &mut rows).expect("a segment that is listed");
    let mut buffer = galumper::create(&[Kind::VIDEO]).expect("one track");
    let mut fates = [Fate::default(); BATCH_FATES];
    let mut lines = Vec::new();
    for rows in rows[..count].chunks(BATCH) {
        let batch = buffer.append_batch(rows, &mut fates).expect("a batch");
        assert_eq!((batch.accepted, batch.stop), (rows.len(), None));
        lines.extend_from_slice(&fates[..batch.lines]);
    }
    let mut ranges = vec![Range::default(); RANGES];
    let reported = buffer.track_ranges(1, &mut ranges).expect("a report");
    ranges.truncate(reported);
    Appended {
        held: buffer.head.nframes,
        lines,
        ranges,
    }
}

/// Whether no frame's decode time breaks with the one before: falls, or leaps by more than twice what
/// that one lasts.
fn unbroken(rows: &[ListedFrame]) -> bool {
    let step = |two: &[ListedFrame]| two[1].dts - two[0].dts;
    rows.windows(2)
        .all(|two| (0..=2 * two[0].duration).contains(&step(two)))
}

/// What a fresh buffer makes of rows without a break: no frame takes the place of another, and
/// dropped are those that begin before 0, where the append window does, and at first and after such
/// a drop those that are no random access point.
fn expected(rows: &[ListedFrame]) -> Appended {
    assert!(unbroken(rows));
    let (mut kept, mut lines, mut waits) = (Vec::new(), Vec::new(), true);
    for (number, row) in (1..).zip(rows) {
        let early = row.pts < 0;
        waits = early || waits && row.flagged == 0;
        let cause = match early {
            true => Cause::BEFORE_WINDOW,
            false => Cause::NEEDS_POINT,
        };
        match waits {
            true => lines.push(Fate { number, cause }),
            false => kept.push(covered(row)),
        }
    }
    Appended {
        held: kept.len(),
        lines,
        ranges: joined(kept),
    }
}

/// The instants that a frame covers.
fn covered(row: &ListedFrame) -> Range {
    Range {
        start: row.pts,
        end: row.pts + row.duration,
    }
}

/// The widest stretches that are covered, in rising order.
fn joined(mut covered: Vec<Range>) -> Vec<Range> {
    covered.sort_by_key(|range| range.start);
    let mut joined: Vec<Range> = Vec::new();
    for range in covered {
        match joined.last_mut() {
            Some(last) if range.start <= last.end => last.end = last.end.max(range.end),
            _ => joined.push(range),
        }
    }
    joined
}

/// Every track of every case: its name, its rows by ffprobe, and what the library makes of it.
fn every_track() -> Vec<(String, Vec<ListedFrame>, Appended)> {
    let mut every = Vec::new();
    for case in cases() {
        for told in &case.tracks {
            let of = SegmentTrack {
                track: 1,
                ..told.of
            };
            let appended = appended(of, &case.segment);
            every.push((case.name.clone(), told.rows(), appended));
        }
    }
    every
}

#[test]
fn the_buffer_holds_what_ffprobe_tells() {
    for (name, rows, appended) in every_track() {
        assert_eq!(appended, expected(&rows), "{name}");
    }
}

/// The names of the cases with such a track, in order.
fn named(such: impl Fn(&[ListedFrame], &Appended) -> bool) -> Vec<String> {
    let mut tracks = every_track();
    tracks.retain(|(_, rows, appended)| such(rows, appended));
    let mut names: Vec<String> = tracks.into_iter().map(|(name, ..)| name).collect();
    names.sort();
    names
}

#[test]
fn all_that_begin_with_a_point_and_not_before_0_are_held_whole() {
    let early = named(|rows, _| rows.iter().any(|row| row.pts < 0));
    let waiting = named(|rows, _| rows.first().is_some_and(|row| row.flagged == 0));
    let not_whole = named(|rows, appended| appended.held < rows.len());
    assert_eq!(early, ["below-zero"]);
    assert_eq!(waiting, ["single"]);
    assert_eq!(not_whole, ["below-zero", "single"]);
}

#[test]
fn a_gap_is_reported_where_the_file_has_one() {
    let parted = named(|_, appended| appended.ranges.len() > 1);
    assert_eq!(parted, ["cmaf"], "whose durations leave out a microsecond");
}
