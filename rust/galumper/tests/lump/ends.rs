//! The end of a segment: told with a last lump or with none, and told again where it was refused.

use galumper::{Refusal, SegmentTrack, LUMP};

use crate::boxes::{boxed, fragment, segment, FRAMES, OF};
use crate::link::{Link, PLACES};

#[test]
fn a_short_list_and_then_a_longer_one() {
    let segment = segment();
    for place in 0..=segment.len() {
        let (first, last) = segment.split_at(place);
        let mut link = Link::fresh();
        link.more(first);
        assert_eq!(link.take(last, true, LUMP, 1), Err(Refusal::ShortList));
        let mut other = link.clone();
        assert_eq!(link.take(last, true, LUMP, 100), Ok(FRAMES.to_vec()));
        // Its bytes were not taken, and may come before the end as well.
        other.more(last);
        assert_eq!(other.take(&[], true, LUMP, 1), Err(Refusal::ShortList));
        assert_eq!(other.end(&[]), Ok(FRAMES.to_vec()));
    }
}

#[test]
fn told_too_early() {
    let segment = segment();
    let mut link = Link::fresh();
    for (place, byte) in segment.iter().enumerate() {
        // After the movie fragment and before the media data the segment could end.
        let due = match place {
            84 => Refusal::ShortList,
            _ => Refusal::Malformed,
        };
        assert_eq!(link.take(&[], true, LUMP, 0), Err(due), "{place}");
        link.more(&[*byte]);
    }
    assert_eq!(link.end(&[]), Ok(FRAMES.to_vec()));
}

#[test]
fn asked_for_another_track() {
    let mut link = Link::fresh();
    link.more(&segment());
    link.of.timescale = 0;
    assert_eq!(link.end(&[]), Err(Refusal::FrameLimits));
    link.of = SegmentTrack { id: 2, ..OF };
    assert_eq!(link.clone().take(&[], true, LUMP, 0), Ok(vec![]));
    link.of = OF;
    assert_eq!(link.end(&[]), Ok(FRAMES.to_vec()));
}

#[test]
fn told_twice_to_copies_of_the_reader() {
    let segment = segment();
    for place in 0..=segment.len() {
        let (first, last) = segment.split_at(place);
        let mut link = Link::fresh();
        link.more(first);
        let reader = link.reader;
        for track in [7, 8] {
            (link.reader, link.of.track) = (reader, track);
            let rows = link.end(last).expect("listed");
            assert!(rows.iter().all(|row| row.track == i64::from(track)));
        }
    }
}

#[test]
fn a_fresh_reader_has_no_segment() {
    assert_eq!(Link::fresh().end(&[]), Err(Refusal::Malformed));
    let mut link = Link::fresh();
    assert_eq!(link.end(&segment()), Ok(FRAMES.to_vec()));
    assert_eq!(link.end(&[]), Err(Refusal::Malformed));
}

#[test]
fn a_movie_fragment_of_nothing() {
    let empty = boxed(b"moof", &[]);
    for place in 0..=empty.len() {
        let mut link = Link::fresh();
        link.more(&empty[..place]);
        assert_eq!(link.take(&empty[place..], true, LUMP, 0), Ok(vec![]));
    }
}

#[test]
fn a_second_movie_fragment() {
    let mut link = Link::fresh();
    link.more(&fragment());
    link.more(&fragment());
    for lump in [vec![], boxed(b"free", &[]), fragment()] {
        assert_eq!(link.end(&lump), Err(Refusal::Malformed));
    }
    // One inside another box is none.
    let mut link = Link::fresh();
    link.more(&boxed(b"moov", &fragment()));
    let said = link.take(&fragment(), true, LUMP, PLACES);
    assert_eq!(said, Ok(FRAMES.to_vec()));
}
