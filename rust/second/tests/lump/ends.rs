//! Refusals at the end: 12, 4 and 10, after which it may be told again.

use second::{LumpReader, Refusal, LUMP_BYTES};

use crate::boxes::{boxed, fragment, run, tfdt, tfhd, traf};
use crate::{plain, plain_traf, recorded, Link, PLACES, PLAIN};

#[test]
fn a_longer_list_after_10() {
    let segment = recorded();
    for place in 0..=segment.len() {
        let (first, second) = segment.split_at(place);
        let mut link = Link::fresh();
        link.more(first);
        for places in [0, 1, 1] {
            let said = link.take(second, true, places, LUMP_BYTES);
            assert_eq!(said, Err(Refusal::ShortList));
        }
        // The bytes have not been taken: they may come as another lump.
        link.more(second);
        assert_eq!(link.take(&[], true, 1, LUMP_BYTES), Err(Refusal::ShortList));
        assert_eq!(link.take(&[], true, 2, LUMP_BYTES), Ok(PLAIN.to_vec()));
    }
}

#[test]
fn an_end_that_was_told_too_early() {
    let segment = recorded();
    let listable = [12 + plain().len(), segment.len()]; // after the movie fragment, and at the end
    let mut link = Link::fresh();
    for (place, byte) in segment.iter().enumerate() {
        let said = link.take(&[], true, 0, LUMP_BYTES);
        let due = match listable.contains(&place) {
            true => Refusal::ShortList,
            false => Refusal::Malformed,
        };
        assert_eq!(said, Err(due), "{place}");
        link.more(&[*byte]);
    }
    assert_eq!(link.end(&[]), Ok(PLAIN.to_vec()));
}

#[test]
fn the_order_is_12_4_10() {
    let beyond = fragment(&[traf(&[tfhd(0, &[1]), tfdt(0), run(0, 0x100, &[1, 10_001])])]);
    for length in [1, 20, 1000] {
        let mut link = Link::fresh();
        beyond.chunks(length).for_each(|lump| link.more(lump));
        let ends = [
            (&[0][..], Refusal::Malformed),
            (&[][..], Refusal::OfferedLimits),
        ];
        for (lump, due) in ends {
            assert_eq!(link.take(lump, true, 0, LUMP_BYTES), Err(due));
        }
    }
}

#[test]
fn a_fresh_reader_has_no_segment() {
    assert_eq!(Link::fresh().end(&[]), Err(Refusal::Malformed));
    assert_eq!(Link::fresh().end(&plain()), Ok(PLAIN.to_vec()));
}

#[test]
fn a_reader_is_fresh_after_a_listing_of_nothing() {
    let mut link = Link::fresh();
    link.more(&boxed(b"moof", &[])[..5]);
    assert_eq!(link.end(&boxed(b"moof", &[])[5..]), Ok(vec![]));
    assert_eq!(link.reader, LumpReader::default());
}

#[test]
fn a_second_movie_fragment_is_malformed_however_good() {
    let pair = [plain(), plain()].concat();
    for length in [1, 8, 50, 1000] {
        let mut link = Link::fresh();
        pair.chunks(length).for_each(|lump| link.more(lump));
        assert_eq!(link.end(&[]), Err(Refusal::Malformed));
        // The first alone is not listed after that either.
        assert_eq!(link.end(&boxed(b"free", &[])), Err(Refusal::Malformed));
    }
    // One inside another box is none.
    let inside = boxed(b"moov", &plain());
    let mut link = Link::fresh();
    link.more(&[inside, plain()].concat());
    assert_eq!(link.end(&[]), Ok(PLAIN.to_vec()));
}

#[test]
fn the_movie_fragment_may_be_in_the_buffer_or_in_the_lump_or_both() {
    let segment = [fragment(&[plain_traf()]), boxed(b"mdat", &[0; 9])].concat();
    for length in 0..=segment.len() {
        let mut link = Link::fresh();
        link.more(&segment[..length]);
        let before = link.buffer.clone();
        assert_eq!(link.end(&segment[length..]), Ok(PLAIN.to_vec()));
        assert!(before == link.buffer, "written at the end");
        assert_eq!(
            link.take(&[], true, PLACES, LUMP_BYTES),
            Err(Refusal::Malformed)
        );
    }
}
