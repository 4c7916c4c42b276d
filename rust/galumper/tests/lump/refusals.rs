//! The sizes that a call takes, and the order of its refusals: 1, 13, 14, then those of the whole.
//! That each leaves reader, buffer and list is watched by the link.

use galumper::{LumpReader, Refusal, SegmentTrack, LUMP};

use crate::boxes::{fragment, header, segment, FRAMES, OF};
use crate::link::{Link, PLACES};

#[test]
fn a_lump_of_over_65536_bytes() {
    let segment = segment();
    let rest = [&segment[50..], &[0; LUMP]].concat();
    let mut link = Link::fresh();
    link.more(&segment[..50]);
    for length in [LUMP + 1, rest.len()] {
        for last in [false, true] {
            let said = link.take(&rest[..length], last, LUMP, PLACES);
            assert_eq!(said, Err(Refusal::LentSize));
        }
    }
    link.more(&rest[..LUMP]);
}

#[test]
fn a_buffer_of_under_65536_bytes() {
    let segment = segment();
    let mut link = Link::fresh();
    link.more(&segment[..50]);
    for bytes in [0, 1, LUMP - 1] {
        for lump in [&[], &segment[50..]] {
            for last in [false, true] {
                let said = link.take(lump, last, bytes, PLACES);
                assert_eq!(said, Err(Refusal::LentSize));
            }
        }
    }
}

#[test]
fn a_longer_buffer_keeps_its_tail() {
    let segment = segment();
    for place in 0..=segment.len() {
        let (first, second) = segment.split_at(place);
        let mut link = Link::fresh();
        assert_eq!(link.take(first, false, LUMP + 3, 0), Ok(vec![]));
        let said = link.take(second, true, LUMP + 1, PLACES);
        assert_eq!(said, Ok(FRAMES.to_vec()));
    }
}

/// What is refused by each number alone, with what is refused by the numbers after it.
#[test]
fn each_before_those_after_it() {
    let large = [header(b"moof", 65_537), vec![0; LUMP]].concat();
    let (ill, fresh) = (
        LumpReader {
            phase: 4,
            ..LumpReader::default()
        },
        LumpReader::default(),
    );
    let calls = [
        (ill, &large[..], LUMP - 1, Refusal::IllFormed),
        (ill, &large[..8], LUMP, Refusal::IllFormed),
        (fresh, &large, LUMP, Refusal::LentSize),
        (fresh, &large[..8], LUMP - 1, Refusal::LentSize),
        (fresh, &large[..8], LUMP, Refusal::LargeFragment),
        (fresh, &large[..LUMP], LUMP, Refusal::LargeFragment),
    ];
    for (reader, lump, bytes, refusal) in calls {
        for last in [false, true] {
            let mut link = Link::fresh();
            (link.reader, link.of.timescale) = (reader, 0);
            assert_eq!(link.take(lump, last, bytes, 0), Err(refusal));
        }
    }
}

#[test]
fn those_of_the_whole_in_their_order() {
    let fragment = fragment();
    for place in 0..=fragment.len() {
        let (first, second) = fragment.split_at(place);
        let mut link = Link::fresh();
        link.more(first);
        link.of.timescale = 0;
        let torn = [second, &[0]].concat();
        assert_eq!(link.take(&torn, true, LUMP, 0), Err(Refusal::Malformed));
        assert_eq!(link.take(second, true, LUMP, 0), Err(Refusal::FrameLimits));
        link.of = OF;
        assert_eq!(link.take(second, true, LUMP, 0), Err(Refusal::ShortList));
        assert_eq!(link.take(second, true, LUMP, 1), Err(Refusal::ShortList));
        assert_eq!(link.take(second, true, LUMP, 2), Ok(FRAMES.to_vec()));
    }
}

#[test]
fn before_the_end_nothing_is_asked_of_track_and_list() {
    let mut link = Link::fresh();
    link.of = SegmentTrack {
        id: 9,
        timescale: 0,
        ..OF
    };
    for lump in segment().chunks(10) {
        assert_eq!(link.take(lump, false, LUMP, 0), Ok(vec![]));
    }
    link.of = OF;
    assert_eq!(link.end(&[]), Ok(FRAMES.to_vec()));
}
