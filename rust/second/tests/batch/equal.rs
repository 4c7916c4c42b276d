//! The outcome equals that of single appends, the lists joined.

use second::{append, set_mode, Fate, Mode, Offered, Row, State, FRAME_PLACES};

use crate::{batch, fresh, full, p, r};

/// The fate list of frames that are all stored and take nothing out.
const STORED: [Fate; 0] = [];

/// The frame of a row whose numbers fit.
fn offered([track, pts, dts, duration, flag, _]: Row) -> Offered {
    Offered {
        track: track as u32,
        pts,
        dts,
        duration: duration as u32,
        flagged: flag == 1,
    }
}

/// The same rows one by one, with 1,024 lines for each.
fn one_by_one(state: &mut State, rows: &[Row]) -> (usize, u32, Vec<Fate>) {
    let mut joined = Vec::new();
    for (accepted, row) in rows.iter().enumerate() {
        let mut fates = [[0; 2]; FRAME_PLACES];
        match append(state, &offered(*row), &mut fates) {
            Ok(count) => joined.extend_from_slice(&fates[..count]),
            Err(refusal) => return (accepted, refusal.number(), joined),
        }
    }
    (rows.len(), 0, joined)
}

#[track_caller]
fn equal(state: &mut State, rows: &[Row]) -> Vec<Fate> {
    let mut other = *state;
    let said = batch(state, rows);
    assert_eq!(said, one_by_one(&mut other, rows));
    assert_eq!(*state, other);
    said.2
}

#[test]
fn frames_that_are_shown_in_another_order() {
    let mut state = fresh(1);
    let shown: Vec<Row> = [0, 300, 100, 200, 600, 400, 500]
        .into_iter()
        .zip(0..)
        .map(|(pts, place)| [1, pts, 100 * place, 100, i64::from(place == 0), 9])
        .collect();
    assert_eq!(equal(&mut state, &shown), STORED);
    // The same stretch again: the first frame takes out its own, and with it all that follow.
    let again = equal(&mut state, &shown);
    assert_eq!(again[..3], [[1, 4], [2, 5], [3, 5]]);
    assert_eq!((again.len(), state.frame_count), (7, 7));
}

#[test]
fn a_frame_that_the_one_before_it_has_made_room_for() {
    let mut state = full(1);
    second::abort(&mut state).expect("an abort");
    let fates = equal(
        &mut state,
        &[r(102_200), p(102_300), p(102_400), p(102_500)],
    );
    assert_eq!(fates, [[1023, 4], [1024, 5]]);
    assert_eq!(state.frame_count, 1024);
}

#[test]
fn a_frame_that_takes_out_one_of_the_same_batch() {
    // The second decode time is a break, so that the third frame looks at presentation times anew.
    let mut state = fresh(1);
    let fates = equal(&mut state, &[r(1000), p(1100), r(900), r(1000), p(0), r(0)]);
    assert_eq!(fates, [[1, 4], [2, 5], [5, 3]]);
}

#[test]
fn tracks_by_turns_and_sequence_mode() {
    let mut state = fresh(4);
    set_mode(&mut state, Mode::Sequence).expect("a mode");
    let rows: Vec<Row> = (0..64)
        .map(|place| {
            [
                place % 4 + 1,
                90 * place,
                90 * place,
                360,
                i64::from(place % 5 != 3),
                9,
            ]
        })
        .collect();
    equal(&mut state, &rows);
    equal(&mut state, &rows);
}
