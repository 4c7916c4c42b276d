//! Refusals of any call, and their order: 1, 13, 14, then those of the end.

use second::{LumpPlace, Refusal, LUMP_BYTES};

use crate::boxes::words;
use crate::{recorded, Link, PLACES, PLAIN};

#[test]
fn a_lump_of_over_65536_bytes() {
    let mut link = Link::fresh();
    let segment = recorded();
    link.more(&segment[..30]);
    let rest = [&segment[30..], &vec![0; LUMP_BYTES][..]].concat();
    for length in [LUMP_BYTES + 1, rest.len()] {
        for last in [false, true] {
            let said = link.take(&rest[..length], last, PLACES, LUMP_BYTES);
            assert_eq!(said, Err(Refusal::LentSize));
        }
    }
    assert_eq!(link.end(&segment[30..]), Ok(PLAIN.to_vec()));
    link.more(&rest[..LUMP_BYTES]);
}

#[test]
fn a_buffer_of_under_65536_bytes() {
    let mut link = Link::fresh();
    let segment = recorded();
    link.more(&segment[..30]);
    for bytes in [0, 1, LUMP_BYTES - 1] {
        for lump in [&[][..], &segment[30..]] {
            for last in [false, true] {
                let said = link.take(lump, last, PLACES, bytes);
                assert_eq!(said, Err(Refusal::LentSize));
            }
        }
    }
    // A longer one is fine, and another length from call to call too.
    for bytes in [LUMP_BYTES + 1, LUMP_BYTES, LUMP_BYTES + 3] {
        assert_eq!(link.take(&[], false, 0, bytes), Ok(vec![]));
    }
    let said = link.take(&segment[30..], true, PLACES, LUMP_BYTES + 2);
    assert_eq!(said, Ok(PLAIN.to_vec()));
}

#[test]
fn the_order_is_1_13_14() {
    let large = [words(&[65_537]), b"moof".to_vec()].concat();
    let long = [&large[..], &[0; LUMP_BYTES]].concat();
    let body = LumpPlace::Body {
        left: 0,
        kept: false,
    };
    for last in [false, true] {
        let mut link = Link::fresh();
        for (lump, bytes, due) in [
            (&long, LUMP_BYTES, Refusal::LentSize),
            (&large, LUMP_BYTES - 1, Refusal::LentSize),
            (&large, LUMP_BYTES, Refusal::LargeFragment),
        ] {
            assert_eq!(link.take(lump, last, 0, bytes), Err(due));
        }
        link.reader.place = body;
        for (lump, bytes) in [(&long, LUMP_BYTES), (&large, LUMP_BYTES - 1), (&large, 0)] {
            assert_eq!(link.take(lump, last, 0, bytes), Err(Refusal::IllFormed));
        }
        assert_eq!(link.take(&[], last, 0, LUMP_BYTES), Err(Refusal::IllFormed));
    }
}
