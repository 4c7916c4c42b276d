//! However a segment is cut, its end is answered as the whole is.

use second::{Refusal, SegmentTrack};

use crate::boxes::{boxed, fragment, full, large, run, tfdt, tfhd, traf, words};
use crate::{plain, plain_traf, recorded, whole, Link, OF, PLAIN};

/// Segments that are listed, and segments that are refused 12 or 4.
fn segments() -> Vec<Vec<u8>> {
    let free = boxed(b"free", &[1, 2, 3]);
    let lost = |size: u32| [words(&[size]), b"free".to_vec()].concat();
    let large_lost = large(b"free", &[]).into_iter().take(15).chain([15]);
    let huge = [1_u32.to_be_bytes(), *b"mdat"].concat();
    let huge = [huge, (1_u64 << 40).to_be_bytes().to_vec(), vec![7; 20]].concat();
    let late = full(b"tfdt", 1, 0, &[u32::MAX, 0]);
    vec![
        vec![],
        plain(),
        recorded(),
        [free.clone(), large(b"moof", &plain_traf()), free.clone()].concat(),
        boxed(b"moof", &[]),
        large(b"moof", &[]),
        free.clone(),
        [plain(), plain()].concat(),
        [plain(), boxed(b"moof", &[]), plain(), free.clone()].concat(),
        [plain(), vec![0; 7]].concat(),
        [plain(), lost(0), plain()].concat(),
        [plain(), lost(7), free.clone()].concat(),
        [plain(), large_lost.collect(), plain()].concat(),
        [plain(), large(b"free", &[])[..15].to_vec()].concat(),
        [plain(), huge].concat(),
        [free, plain()[..60].to_vec()].concat(),
        fragment(&[traf(&[tfdt(0), run(0, 0, &[2])])]),
        fragment(&[traf(&[tfhd(0, &[1]), late, run(0, 0, &[2])])]),
    ]
}

#[test]
fn some_are_listed_and_some_refused() {
    let said: Vec<_> = segments().iter().map(|bytes| whole(OF, bytes)).collect();
    assert_eq!(said[1], Ok(PLAIN.to_vec()));
    assert_eq!(said[2], Ok(PLAIN.to_vec()));
    assert_eq!(said[4], Ok(vec![]));
    assert_eq!(said[7], Err(Refusal::Malformed));
    assert_eq!(said[17], Err(Refusal::OfferedLimits));
}

#[test]
fn into_two_at_every_place() {
    for segment in segments() {
        let due = whole(OF, &segment);
        for place in 0..=segment.len() {
            let (first, second) = segment.split_at(place);
            let mut link = Link::fresh();
            link.more(first);
            assert_eq!(link.end(second), due, "{place} of {segment:?}");
            let mut link = Link::fresh();
            link.more(first);
            link.more(second);
            assert_eq!(link.end(&[]), due, "{place} of {segment:?}, then no lump");
        }
    }
}

#[test]
fn into_three_at_every_two_places() {
    let segment = recorded();
    for end in 0..=segment.len() {
        for start in 0..=end {
            let mut link = Link::fresh();
            link.more(&segment[..start]);
            link.more(&segment[start..end]);
            let said = link.end(&segment[end..]);
            assert_eq!(said, Ok(PLAIN.to_vec()), "{start}, {end}");
        }
    }
}

#[test]
fn into_lumps_of_every_length() {
    for segment in segments() {
        let due = whole(OF, &segment);
        for length in 1..=segment.len().max(1) {
            let mut link = Link::fresh();
            segment.chunks(length).for_each(|lump| link.more(lump));
            assert_eq!(link.end(&[]), due, "{length} of {segment:?}");
        }
    }
}

#[test]
fn a_lump_of_no_bytes_changes_nothing() {
    let mut link = Link::fresh();
    for byte in recorded() {
        let before = (link.reader, link.buffer.clone());
        link.more(&[]);
        assert!(before == (link.reader, link.buffer.clone()));
        link.more(&[byte]);
    }
    assert_eq!(link.end(&[]), Ok(PLAIN.to_vec()));
}

#[test]
fn what_is_asked_is_judged_at_the_end_alone() {
    let mut link = Link::fresh();
    link.of = SegmentTrack {
        id: 2,
        track: 1,
        timescale: 0,
        duration: 0,
        size: 0,
        flags: u32::MAX,
    };
    let segment = recorded();
    link.more(&segment[..50]);
    assert_eq!(link.end(&segment[50..]), Err(Refusal::OfferedLimits));
    link.of = OF;
    assert_eq!(link.end(&segment[50..]), Ok(PLAIN.to_vec()));
}

#[test]
fn one_segment_after_another() {
    let mut link = Link::fresh();
    for segment in [recorded(), plain(), boxed(b"moof", &[]), recorded()] {
        let due = whole(OF, &segment);
        for length in [1, 7, 16, 100] {
            segment.chunks(length).for_each(|lump| link.more(lump));
            assert_eq!(link.end(&[]), due);
        }
    }
}
