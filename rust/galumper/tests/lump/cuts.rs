//! However a segment is cut, the end is answered as the whole is.

use crate::boxes::{boxed, fragment, header, header_by_64, segment, FRAMES, OF};
use crate::link::{whole, Link};

/// A segment that is listed, and some that are refused, cut short or torn.
fn segments() -> Vec<Vec<u8>> {
    let (whole, fragment) = (segment(), fragment());
    let cut_short = (0..whole.len()).map(|end| whole[..end].to_vec());
    let torn = [
        [&fragment[..], &fragment].concat(),
        [&fragment[..], &[0; 7]].concat(),
        [&fragment[..], &header(b"free", 7), &fragment].concat(),
        [&header_by_64(b"moof", 15)[..], &fragment].concat(),
        [&header(b"mdat", 0)[..], &fragment].concat(),
        [&fragment[..], &header_by_64(b"mdat", u64::MAX)].concat(),
        boxed(b"moof", &fragment),
        boxed(b"moov", &fragment),
    ];
    cut_short.chain(torn).chain([whole.clone()]).collect()
}

/// A segment in these lumps ends as the whole does, with the last of them and after it.
fn ends_as_the_whole(segment: &[u8], lumps: &[&[u8]]) {
    let due = whole(OF, segment);
    let (last, earlier) = lumps.split_last().expect("a lump");
    let mut link = Link::fresh();
    earlier.iter().for_each(|lump| link.more(lump));
    let mut other = link.clone();
    assert_eq!(link.end(last), due, "{segment:?} in {lumps:?}");
    other.more(last);
    assert_eq!(other.end(&[]), due, "{segment:?} in {lumps:?}, and none");
}

#[test]
fn into_two_at_every_place() {
    for segment in segments() {
        for place in 0..=segment.len() {
            let (first, second) = segment.split_at(place);
            ends_as_the_whole(&segment, &[first, second]);
        }
    }
}

#[test]
fn byte_by_byte() {
    for segment in segments().iter().filter(|segment| !segment.is_empty()) {
        let bytes: Vec<&[u8]> = segment.chunks(1).collect();
        ends_as_the_whole(segment, &bytes);
    }
}

#[test]
fn with_nothing_between() {
    let segment = segment();
    for place in 0..=segment.len() {
        let (first, second) = segment.split_at(place);
        ends_as_the_whole(&segment, &[&[], first, &[], &[], second, &[]]);
    }
}

#[test]
fn in_one_lump() {
    for segment in segments() {
        ends_as_the_whole(&segment, &[&segment]);
    }
}

#[test]
fn one_segment_after_the_other() {
    let segment = segment();
    let mut link = Link::fresh();
    for length in 1..segment.len() {
        segment.chunks(length).for_each(|lump| link.more(lump));
        assert_eq!(link.end(&[]), Ok(FRAMES.to_vec()), "{length}");
    }
}

#[test]
fn gone_on_with_from_a_copy() {
    let segment = segment();
    let mut link = Link::fresh();
    link.more(&segment[..50]);
    let saved = link.clone();
    assert_eq!(link.end(&segment[50..]), Ok(FRAMES.to_vec()));
    link.more(&[0xff; 100]);
    assert_eq!(saved.clone().end(&segment[50..]), Ok(FRAMES.to_vec()));
}
