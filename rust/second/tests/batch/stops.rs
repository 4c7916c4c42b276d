//! What stops a batch, and what stays.

use second::{quotient, Row, Seconds, State, BATCH_FRAMES, OFFERED_LIMIT};

use crate::{batch, fresh, full, p, r};

/// A batch on a fresh buffer of one track: two good frames, a refused one and a good one.
#[track_caller]
fn stops_at(refused: Row, refusal: u32) {
    stops_on(fresh(1), refused, refusal);
}

#[track_caller]
fn stops_on(mut state: State, refused: Row, refusal: u32) {
    let mut wanted = state;
    assert_eq!(batch(&mut wanted, &[r(0), p(100)]), (2, 0, vec![]));
    let said = batch(&mut state, &[r(0), p(100), refused, p(200)]);
    assert_eq!(said, (2, refusal, vec![]));
    assert_eq!(state, wanted);
}

#[test]
fn by_3() {
    for track in [0, 2, 5, -1, 257, 1 << 32, (1 << 32) + 1, i64::MIN, i64::MAX] {
        stops_at([track, 200, 200, 100, 0, 9], 3);
    }
}

#[test]
fn by_4() {
    for duration in [0, 10_000_001, -1, -100, 1 << 32, (1 << 32) + 100, i64::MAX] {
        stops_at([1, 200, 200, duration, 0, 9], 4);
    }
    for flag in [2, -1, 255, 256, 1 << 32, (1 << 32) + 1, i64::MIN] {
        stops_at([1, 200, 200, 100, flag, 9], 4);
    }
    for time in [OFFERED_LIMIT + 1, -OFFERED_LIMIT - 1, i64::MIN, i64::MAX] {
        stops_at([1, time, 200, 100, 0, 9], 4);
        stops_at([1, 200, time, 100, 0, 9], 4);
    }
}

#[test]
fn by_3_before_4() {
    stops_at([0, i64::MAX, i64::MIN, -1, 2, -9], 3);
}

#[test]
fn sizes_do_not_matter() {
    for size in [0, -1, i64::MIN, i64::MAX] {
        let mut state = fresh(1);
        let said = batch(&mut state, &[[1, 0, 0, 100, 1, size]]);
        assert_eq!(said, (1, 0, vec![]));
    }
}

#[test]
fn by_9() {
    let mut state = fresh(1);
    state.head.last_number = u32::MAX - 2;
    // A dropped frame takes a number as well.
    let said = batch(&mut state, &[p(0), r(100), p(200)]);
    assert_eq!(said, (2, 9, vec![[u32::MAX - 1, 3]]));
    assert_eq!(state.head.last_number, u32::MAX);
    // Whatever would be refused 7 is refused 9 then; 4 comes before.
    let far = [1, OFFERED_LIMIT, 0, 100, 1, 9];
    assert_eq!(batch(&mut state, &[far]), (0, 9, vec![]));
    assert_eq!(batch(&mut state, &[[1, 0, 0, 0, 1, 9]]), (0, 4, vec![]));
}

#[test]
fn by_7() {
    let mut state = fresh(1);
    let micros = 3 * OFFERED_LIMIT;
    let double = quotient(micros);
    state.head.settings.offset = Seconds { double, micros };
    // The end of a frame that is shown at the limit is beyond it.
    stops_on(state, [1, OFFERED_LIMIT, 200, 100, 0, 9], 7);
}

#[test]
fn by_8() {
    let mut state = full(1);
    let last = state.frames[1023].end();
    let held = state;
    assert_eq!(batch(&mut state, &[p(last), p(0)]), (0, 8, vec![]));
    assert_eq!(state, held);
}

#[test]
fn by_8_once_the_places_are_used_up() {
    let mut state = full(1);
    let (mut fates, end) = (vec![[0; 2]; 1024], state.frames[1023].end());
    let start = quotient(end - 300);
    let removed = second::remove(&mut state, start, f64::INFINITY, &mut fates);
    assert_eq!(removed, Ok(3));
    let rows: Vec<Row> = (-3..2).map(|place| r(end + 100 * place)).collect();
    assert_eq!(batch(&mut state, &rows), (3, 8, vec![]));
    assert_eq!(state.frame_count, 1024);
    assert_eq!(state.head.last_number, 1027);
}

#[test]
fn the_most_lines_are_1087() {
    // After an abort all tracks need a random access point: 63 frames are dropped, and the one
    // that is stored takes out all 1,024.
    let mut state = full(2);
    second::abort(&mut state).expect("an abort");
    let drop = [2, 0, 0, 100, 0, 9];
    let long = [1, 0, 0, 10_000_000, 1, 9];
    let mut rows = vec![drop; BATCH_FRAMES];
    rows[40] = long;
    let (accepted, stop, fates) = batch(&mut state, &rows);
    assert_eq!((accepted, stop, fates.len()), (BATCH_FRAMES, 0, 1087));
    assert_eq!((state.frame_count, state.frames[0].number), (1, 1065));
    assert_eq!(fates[39..42], [[1064, 3], [1, 4], [2, 4]]);
    assert_eq!(fates[1063..1065], [[1024, 4], [1066, 3]]);
}
