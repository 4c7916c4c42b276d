//! Refusals of the whole call: 1, 13, 2, of an empty list too.

use second::{Batch, BATCH_FRAMES, BATCH_LINES, FRAME_PLACES};

use crate::{batch_with, fresh, r};

#[test]
fn the_order_is_1_13_2() {
    let (good, mut bad) = (fresh(1), fresh(1));
    bad.head.track_count = 5;
    let say = |state, frames, lines| {
        let mut state: second::State = state;
        let refused = batch_with(&mut state, &vec![r(0); frames], lines);
        refused.err().map_or(0, second::Refusal::number)
    };
    for lines in [0, 1, FRAME_PLACES, BATCH_LINES - 1] {
        for frames in [0, 1, BATCH_FRAMES, BATCH_FRAMES + 1] {
            assert_eq!(say(bad, frames, lines), 1);
        }
        assert_eq!(say(good, BATCH_FRAMES + 1, lines), 13);
        assert_eq!(say(good, 1000, lines), 13);
        for frames in [0, 1, BATCH_FRAMES] {
            assert_eq!(say(good, frames, lines), 2);
        }
    }
    for lines in [BATCH_LINES, BATCH_LINES + 1, 5000] {
        for frames in [0, 1, BATCH_FRAMES, BATCH_FRAMES + 1] {
            assert_eq!(say(bad, frames, lines), 1);
        }
        assert_eq!(say(good, BATCH_FRAMES + 1, lines), 13);
        for frames in [0, 1, BATCH_FRAMES] {
            assert_eq!(say(good, frames, lines), 0);
        }
    }
}

#[test]
fn an_empty_list_changes_nothing_and_counts_0() {
    let mut state = fresh(2);
    let before = state;
    let said = batch_with(&mut state, &[], BATCH_LINES);
    assert_eq!(said, Ok((Batch::default(), vec![])));
    assert_eq!(state, before);
}
