//! Document 02, No. 2: a batch is its frames appended one by one, up to the first that is refused.

mod equal;
mod refusals;
mod stops;

use second::{
    append_batch, create, Batch, Fate, Refusal, Row, State, BATCH_FRAMES, BATCH_LINES, FRAME_PLACES,
};

const MARK: Fate = [u32::MAX; 2];

/// Tracks of video.
fn fresh(tracks: usize) -> State {
    create(&vec![0; tracks]).expect("a buffer")
}

/// A row of track 1 that lasts 100, both times equal.
fn row(time: i64, flag: i64) -> Row {
    [1, time, time, 100, flag, 9]
}

/// R: a flagged frame.
fn r(time: i64) -> Row {
    row(time, 1)
}

/// P: a frame without the flag.
fn p(time: i64) -> Row {
    row(time, 0)
}

/// Lends so many lines; checks that no line past the count is touched, and on a refusal nothing.
fn batch_with(
    state: &mut State,
    rows: &[Row],
    lines: usize,
) -> Result<(Batch, Vec<Fate>), Refusal> {
    let before = *state;
    let mut fates = vec![MARK; lines];
    let result = append_batch(state, rows, &mut fates);
    let count = result.map_or(0, |batch| batch.lines);
    assert!(fates[count..].iter().all(|line| *line == MARK), "touched");
    if result.is_err() {
        assert_eq!(*state, before);
    }
    result.map(|batch| (batch, fates[..count].to_vec()))
}

/// A batch that is not refused: how many frames it accepted, the number of the refusal that
/// stopped it, and its lines.
fn batch(state: &mut State, rows: &[Row]) -> (usize, u32, Vec<Fate>) {
    let (batch, fates) = batch_with(state, rows, BATCH_LINES).expect("a batch");
    (batch.accepted, batch.stop.map_or(0, Refusal::number), fates)
}

/// A full store: frames of track 1, one after another, of which the first alone is flagged.
fn full(tracks: usize) -> State {
    let mut state = fresh(tracks);
    let rows: Vec<Row> = (0..FRAME_PLACES as i64)
        .map(|place| row(100 * place, i64::from(place == 0)))
        .collect();
    for rows in rows.chunks(BATCH_FRAMES) {
        assert_eq!(batch(&mut state, rows), (BATCH_FRAMES, 0, vec![]));
    }
    state
}
