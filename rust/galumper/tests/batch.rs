//! A whole segment's frames in one call: refused as a whole in its order, else the same as single
//! appends up to the first frame that is refused.

use galumper::{
    Batch, Buffer, Cause, Fate, Kind, ListedFrame, Mode, Offered, Refusal, BATCH, BATCH_FATES,
    FATES, PLACES,
};

/// What no call writes.
const FATE: Fate = Fate {
    number: 7,
    cause: Cause(7),
};

/// A random access point at 0 that lasts 40 ms.
const POINT: ListedFrame = ListedFrame {
    track: 1,
    pts: 0,
    dts: 0,
    duration: 40_000,
    flagged: 1,
    size: 500,
};

/// A row of the first track, shown when it is decoded.
fn row(time: i64, duration: i64, flagged: bool) -> ListedFrame {
    ListedFrame {
        pts: time,
        dts: time,
        duration,
        flagged: flagged.into(),
        ..POINT
    }
}

fn fresh() -> Box<Buffer> {
    galumper::create(&[Kind::VIDEO, Kind::AUDIO]).expect("two tracks")
}

/// A buffer that holds so many frames of a microsecond, the first a random access point.
fn holding(count: usize) -> Box<Buffer> {
    let mut buffer = fresh();
    let rows: Vec<_> = (0..count as i64).map(|n| row(n, 1, n == 0)).collect();
    for rows in rows.chunks(BATCH) {
        appended(&mut buffer, rows);
    }
    buffer
}

/// Appends rows of which none is refused, dropped or takes another's place.
fn appended(buffer: &mut Buffer, rows: &[ListedFrame]) {
    let batch = Batch {
        accepted: rows.len(),
        stop: None,
        lines: 0,
    };
    assert_eq!(
        buffer.append_batch(rows, &mut [FATE; BATCH_FATES]),
        Ok(batch)
    );
}

/// A row of numbers that an append takes, as it is offered.
fn offered(row: &ListedFrame) -> Offered {
    Offered {
        track: row.track as u32,
        flagged: row.flagged == 1,
        duration: row.duration as u32,
        pts: row.pts,
        dts: row.dts,
    }
}

/// What a batch shall do: single appends up to the first that is refused, each lent lines of its
/// own, the lines joined.
fn one_by_one(buffer: &mut Buffer, rows: &[ListedFrame]) -> (usize, Option<Refusal>, Vec<Fate>) {
    let mut lines = Vec::new();
    for (accepted, row) in rows.iter().enumerate() {
        let mut own = [FATE; FATES];
        match buffer.append(offered(row), &mut own) {
            Ok(count) => lines.extend_from_slice(&own[..count]),
            Err(refusal) => return (accepted, Some(refusal), lines),
        }
    }
    (rows.len(), None, lines)
}

/// What the batch answers and its lines, where it does what single appends do.
fn as_one_by_one(buffer: &Buffer, rows: &[ListedFrame]) -> (Batch, Vec<Fate>) {
    let [mut singly, mut whole] = [buffer, buffer].map(|buffer| Box::new(buffer.clone()));
    let (accepted, stop, lines) = one_by_one(&mut singly, rows);
    let mut fates = [FATE; BATCH_FATES];
    let batch = Batch {
        accepted,
        stop,
        lines: lines.len(),
    };
    assert_eq!(whole.append_batch(rows, &mut fates), Ok(batch));
    assert_eq!(whole, singly);
    let (written, untouched) = fates.split_at(lines.len());
    assert_eq!(written, lines);
    assert!(untouched.iter().all(|&line| line == FATE));
    (batch, lines)
}

/// The call as a whole is refused, and changes nothing.
fn refused(buffer: &Buffer, rows: &[ListedFrame], lines: usize, refusal: Refusal) {
    let mut after = Box::new(buffer.clone());
    let mut fates = vec![FATE; lines];
    assert_eq!(after.append_batch(rows, &mut fates), Err(refusal));
    assert_eq!(*after, *buffer);
    assert_eq!(fates, vec![FATE; lines]);
}

#[test]
fn the_whole_call_is_refused_in_its_order() {
    let good = fresh();
    let mut ill = good.clone();
    ill.head.mode = 2;
    let short = BATCH_FATES - 1;
    for count in [0, 1, BATCH] {
        let rows = vec![POINT; count];
        refused(&good, &rows, 0, Refusal::ShortFates);
        refused(&good, &rows, short, Refusal::ShortFates);
        refused(&ill, &rows, short, Refusal::IllFormed);
        refused(&ill, &rows, BATCH_FATES, Refusal::IllFormed);
    }
    for count in [BATCH + 1, 1000] {
        let rows = vec![POINT; count];
        refused(&good, &rows, BATCH_FATES, Refusal::LentSize);
        refused(&good, &rows, short, Refusal::LentSize);
        refused(&ill, &rows, short, Refusal::IllFormed);
    }
}

#[test]
fn an_empty_list_changes_nothing() {
    for before in [fresh(), holding(PLACES)] {
        let mut buffer = before.clone();
        appended(&mut buffer, &[]);
        assert_eq!(buffer, before);
    }
}

/// A batch of three whose second frame is refused: the first stays, and the third is not reached.
fn stops(buffer: &Buffer, second: ListedFrame, refusal: Refusal) {
    let third = row(40_000, 40_000, false);
    let (batch, _) = as_one_by_one(buffer, &[POINT, second, third]);
    assert_eq!((batch.accepted, batch.stop), (1, Some(refusal)));
}

#[test]
fn it_stops_at_the_first_frame_that_is_refused() {
    let mut buffer = fresh();
    stops(&buffer, ListedFrame { track: 3, ..POINT }, Refusal::NoTrack);
    let long = row(40_000, 10_000_001, false);
    stops(&buffer, long, Refusal::FrameLimits);
    let far = row(1_000_000_000_001, 40_000, true);
    stops(&buffer, far, Refusal::FrameLimits);
    buffer.head.last = u32::MAX - 1;
    stops(&buffer, POINT, Refusal::LastNumber);
    stops(&buffer, long, Refusal::FrameLimits);
}

#[test]
fn a_time_beyond_the_limits_of_a_result_stops_it() {
    const FAR: i64 = 1_000_000_000_000;
    let mut buffer = fresh();
    assert_eq!(buffer.set_mode(Mode::Sequence), Ok(()));
    // A group whose second frame is shown as late as can be, and such a group once more after it.
    let first = row(-FAR, 40_000, true);
    let late = ListedFrame {
        pts: FAR,
        ..row(40_000 - FAR, 40_000, false)
    };
    let (batch, _) = as_one_by_one(&buffer, &[first, late, first, late, first]);
    assert_eq!(batch.accepted, 3);
    assert_eq!(batch.stop, Some(Refusal::ResultLimits));
}

#[test]
fn a_full_store_stops_it_and_the_rest_follows_after_a_removal() {
    let mut buffer = holding(PLACES - 1);
    let time = PLACES as i64;
    let rows = [0, 1, 2].map(|n| row(time + n, 1, n == 0));
    let (batch, _) = as_one_by_one(&buffer, &rows);
    assert_eq!((batch.accepted, batch.stop), (1, Some(Refusal::Full)));

    let mut fates = [FATE; BATCH_FATES];
    assert_eq!(buffer.append_batch(&rows, &mut fates), Ok(batch));
    assert_eq!(buffer.remove(0.0, 0.001, &mut fates), Ok(PLACES - 1));
    appended(&mut buffer, &rows[batch.accepted..]);
    assert_eq!(buffer.head.nframes, rows.len());
}

/// The refusal that stops a batch of one row.
fn stop(buffer: &Buffer, row: ListedFrame) -> Option<Refusal> {
    let mut after = Box::new(buffer.clone());
    let batch = after.append_batch(&[row], &mut [FATE; BATCH_FATES]);
    let stop = batch.expect("a call that is not refused").stop;
    assert!(stop.is_none() || *after == *buffer, "{row:?}");
    stop
}

#[test]
fn a_row_that_no_offered_frame_could_be() {
    const BEYOND: i64 = 1 << 32;
    let mut buffer = fresh();
    let no_track = Some(Refusal::NoTrack);
    let limits = Some(Refusal::FrameLimits);
    for track in [-1, 0, 3, BEYOND + 1, 1 - BEYOND, i64::MIN] {
        let elsewhere = ListedFrame { track, ..POINT };
        assert_eq!(stop(&buffer, elsewhere), no_track);
        let flagged = 2;
        let and_a_flag = ListedFrame {
            flagged,
            ..elsewhere
        };
        assert_eq!(stop(&buffer, and_a_flag), no_track);
    }
    // The last number is given, which is refused after the limits of the frame.
    buffer.head.last = u32::MAX;
    assert_eq!(stop(&buffer, POINT), Some(Refusal::LastNumber));
    for duration in [-1, 0, BEYOND + 40_000, 40_000 - BEYOND, i64::MIN] {
        assert_eq!(stop(&buffer, ListedFrame { duration, ..POINT }), limits);
    }
    for flagged in [-1, 2, 257, BEYOND + 1, 1 - BEYOND, i64::MIN] {
        assert_eq!(stop(&buffer, ListedFrame { flagged, ..POINT }), limits);
    }
    for time in [i64::MIN, i64::MAX] {
        assert_eq!(stop(&buffer, row(time, 40_000, true)), limits);
    }
}

#[test]
fn the_size_is_not_looked_at() {
    let [mut buffer, mut other] = [fresh(), fresh()];
    appended(&mut buffer, &[POINT]);
    let size = i64::MIN;
    appended(&mut other, &[ListedFrame { size, ..POINT }]);
    assert_eq!(buffer, other);
}

#[test]
fn drops_breaks_and_overlaps_are_those_of_single_appends() {
    let mut buffer = fresh();
    assert_eq!(buffer.set_window_end(1.5), Ok(()));
    // Two frames too early for a random access point, and three past the window.
    let line: Vec<_> = (0..40)
        .map(|n| row(40_000 * n, 40_000, n % 12 == 2))
        .collect();
    let (_, lines) = as_one_by_one(&buffer, &line);
    let causes: Vec<u32> = lines.iter().map(|line| line.cause.0).collect();
    assert_eq!(causes, [3, 3, 2, 2, 2]);

    // A break back to the first point, whose frames take the place of those that were there.
    let again = [&line[2..26], &line[2..38]].concat();
    let (_, lines) = as_one_by_one(&buffer, &again);
    for cause in [Cause::OVERLAPPED, Cause::DEPENDED] {
        assert!(lines.iter().any(|line| line.cause == cause), "{cause}");
    }
    assert_eq!(buffer.set_mode(Mode::Sequence), Ok(()));
    as_one_by_one(&buffer, &again);
}

#[test]
fn the_most_lines_that_there_can_be() {
    let mut buffer = holding(PLACES);
    assert_eq!(buffer.abort(), Ok(()));
    // One frame takes the place of all that are stored, and the others are dropped.
    let mut rows = [row(-1, 1, true); BATCH];
    rows[BATCH / 2] = POINT;
    let (batch, _) = as_one_by_one(&buffer, &rows);
    assert_eq!((batch.stop, batch.lines), (None, BATCH_FATES - 1));
}
