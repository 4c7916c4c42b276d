//! Movie fragments up to 65,536 bytes and beyond, and other boxes of any size.

use galumper::{Refusal, LUMP};

use crate::boxes::{
    boxed, fragment, header, header_by_64, segment, sized, sized_by_64, FRAMES, OF,
};
use crate::link::{whole, Link, PLACES};

#[test]
fn exactly_65536_bytes() {
    let after = boxed(b"mdat", &[0; 100]);
    for segment in [
        sized(LUMP),
        sized_by_64(LUMP),
        [sized(LUMP), after.clone()].concat(),
        [after, sized_by_64(LUMP)].concat(),
    ] {
        assert_eq!(whole(OF, &segment), Ok(FRAMES.to_vec()));
        for length in [1_000, 7_919, LUMP - 1, LUMP] {
            let mut link = Link::fresh();
            let lumps: Vec<&[u8]> = segment.chunks(length).collect();
            let (last, earlier) = lumps.split_last().expect("a lump");
            earlier.iter().for_each(|lump| link.more(lump));
            let mut other = link.clone();
            assert_eq!(link.end(last), Ok(FRAMES.to_vec()), "{length}");
            other.more(last);
            assert_eq!(other.end(&[]), Ok(FRAMES.to_vec()), "{length}, and none");
        }
    }
}

#[test]
fn cut_near_both_ends_of_the_largest() {
    let segment = sized(LUMP);
    for place in (0..20).chain(LUMP - 20..LUMP) {
        let (first, second) = segment.split_at(place);
        let mut link = Link::fresh();
        link.more(first);
        assert_eq!(link.end(second), Ok(FRAMES.to_vec()), "{place}");
    }
}

/// A lump is refused 14 with the end and without.
#[track_caller]
fn refused(link: &mut Link, lump: &[u8]) {
    for last in [false, true] {
        let said = link.take(lump, last, LUMP, PLACES);
        assert_eq!(said, Err(Refusal::LargeFragment));
    }
}

#[test]
fn one_byte_more_is_told_by_the_last_byte_of_the_size() {
    for large in [
        header(b"moof", 65_537),
        header(b"moof", u32::MAX),
        header_by_64(b"moof", 65_537),
        header_by_64(b"moof", 1 << 32),
        header_by_64(b"moof", u64::MAX),
    ] {
        let bytes = [boxed(b"styp", &[1, 2]), large].concat();
        let end = bytes.len() - 1;
        for place in 0..=end {
            let mut link = Link::fresh();
            link.more(&bytes[..place]);
            refused(&mut link, &bytes[place..]);
            refused(&mut link, &[&bytes[place..], &[0; 30]].concat());
            // Without that byte it is a segment that is cut off.
            link.more(&bytes[place..end]);
            assert_eq!(link.end(&[]), Err(Refusal::Malformed));
            refused(&mut link, &bytes[end..]);
        }
    }
}

#[test]
fn what_is_before_it_in_the_lump_is_not_taken() {
    let good = segment();
    let bytes = [&good[..], &header(b"moof", 65_537)].concat();
    for place in 0..good.len() {
        let mut link = Link::fresh();
        link.more(&bytes[..place]);
        refused(&mut link, &bytes[place..]);
        assert_eq!(link.end(&good[place..]), Ok(FRAMES.to_vec()));
    }
}

#[test]
fn also_for_a_second_one() {
    let mut link = Link::fresh();
    for _ in 0..3 {
        link.more(&fragment());
        refused(&mut link, &header(b"moof", 65_537));
        refused(&mut link, &header_by_64(b"moof", u64::MAX));
    }
    link.more(&sized(LUMP));
    assert_eq!(link.end(&[]), Err(Refusal::Malformed));
}

#[test]
fn not_where_no_box_can_be_told() {
    for stop in [
        header(b"moof", 0),
        header(b"free", 7),
        header_by_64(b"moof", 15),
    ] {
        let mut link = Link::fresh();
        link.more(&[stop, header(b"moof", 65_537)].concat());
        link.more(&header(b"moof", 65_537));
        assert_eq!(link.end(&fragment()), Err(Refusal::Malformed));
    }
    // Nor inside another box.
    let mut link = Link::fresh();
    link.more(&boxed(b"moov", &header(b"moof", 65_537)));
    assert_eq!(link.end(&fragment()), Ok(FRAMES.to_vec()));
}

#[test]
fn gigabytes_announced_that_never_come() {
    for announced in [
        header(b"mdat", u32::MAX),
        header_by_64(b"mdat", 1 << 40),
        header_by_64(b"mdat", u64::MAX),
        header_by_64(b"MOOF", u64::MAX),
    ] {
        let mut link = Link::fresh();
        link.more(&[fragment(), announced].concat());
        link.more(&[0; LUMP]);
        assert_eq!(link.end(&[]), Err(Refusal::Malformed));
    }
}

#[test]
fn gigabytes_that_come_are_counted_and_not_kept() {
    let lumps = 80_000; // more than 32 bits count
    let lump = vec![0xff; LUMP];
    let mut link = Link::fresh();
    let media = 100 + lumps * LUMP as u64;
    link.more(&header_by_64(b"mdat", 16 + media));
    let before = link.clone();
    let Link { of, reader, buffer } = &mut link;
    for _ in 0..lumps {
        let taken = reader.take_lump(*of, buffer, &lump, false, &mut []);
        assert_eq!(taken, Ok(0));
    }
    assert!(link.buffer == before.buffer, "kept");
    assert_eq!(link.end(&lump[..99]), Err(Refusal::Malformed));
    let end = [&lump[..100], &fragment()].concat();
    assert_eq!(link.end(&end), Ok(FRAMES.to_vec()));
}
