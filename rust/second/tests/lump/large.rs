//! Refusal 14, as soon as a size is read; and what is as large as may be.

use second::{Refusal, LUMP_BYTES};

use crate::boxes::{boxed, words};
use crate::{plain, recorded, sized, sized_by_64, whole, Link, OF, PLAIN};

/// The first 8 bytes of a box.
fn header(kind: &[u8; 4], size: u32) -> Vec<u8> {
    [words(&[size]), kind.to_vec()].concat()
}

/// The first 16 bytes of a box with a 64-bit size.
fn header_by_64(kind: &[u8; 4], size: u64) -> Vec<u8> {
    [header(kind, 1), size.to_be_bytes().to_vec()].concat()
}

#[test]
fn a_movie_fragment_of_65536_bytes_is_good() {
    for segment in [
        sized(LUMP_BYTES),
        sized_by_64(LUMP_BYTES),
        [sized(LUMP_BYTES), boxed(b"mdat", &[0; 100])].concat(),
        [recorded()[..12].to_vec(), sized(LUMP_BYTES - 1)].concat(),
    ] {
        assert_eq!(whole(OF, &segment), Ok(PLAIN.to_vec()));
        for length in [1_000, 7_919, 65_535, LUMP_BYTES] {
            let mut link = Link::fresh();
            segment.chunks(length).for_each(|lump| link.more(lump));
            assert_eq!(link.end(&[]), Ok(PLAIN.to_vec()), "{length}");
        }
    }
}

#[test]
fn a_header_after_the_largest_is_cut_anywhere() {
    let segment = sized(LUMP_BYTES);
    let after = [header_by_64(b"mdat", 24), vec![1; 8], boxed(b"free", &[1])].concat();
    for place in 0..=after.len() {
        let mut link = Link::fresh();
        link.more(&segment);
        link.more(&after[..place]);
        assert_eq!(link.end(&after[place..]), Ok(PLAIN.to_vec()), "{place}");
    }
}

#[test]
fn one_byte_more_is_refused_with_the_byte_that_tells_it() {
    for header in [
        header(b"moof", 65_537),
        header(b"moof", u32::MAX),
        header_by_64(b"moof", 65_537),
        header_by_64(b"moof", 1 << 32),
        header_by_64(b"moof", u64::MAX),
    ] {
        let before = boxed(b"styp", &[1, 2]);
        let bytes = [before, header].concat();
        for place in 0..bytes.len() {
            let mut link = Link::fresh();
            link.more(&bytes[..place]);
            // All that is missing, or with more behind it, with the end and without.
            let rest = [&bytes[place..], &[0; 30]].concat();
            for lump in [&rest[..bytes.len() - place], &rest] {
                link.refused(Refusal::LargeFragment, lump);
                assert_eq!(link.end(lump), Err(Refusal::LargeFragment));
            }
            // Without its last byte it is a segment that is cut off.
            link.more(&bytes[place..bytes.len() - 1]);
            assert_eq!(link.end(&[]), Err(Refusal::Malformed));
            link.refused(Refusal::LargeFragment, &bytes[bytes.len() - 1..]);
        }
    }
}

#[test]
fn the_bytes_before_it_in_the_lump_are_not_taken() {
    let good = recorded();
    let lump = [&good[..], &header(b"moof", 70_000)].concat();
    let mut link = Link::fresh();
    link.refused(Refusal::LargeFragment, &lump);
    assert_eq!(link.end(&good), Ok(PLAIN.to_vec()));
    // Nor those of a movie fragment that ends in it.
    let (first, second) = lump.split_at(60);
    link.more(first);
    link.refused(Refusal::LargeFragment, second);
    assert_eq!(link.end(&good[60..]), Ok(PLAIN.to_vec()));
}

#[test]
fn also_for_a_second_movie_fragment() {
    let mut link = Link::fresh();
    link.more(&plain());
    link.refused(Refusal::LargeFragment, &header(b"moof", 65_537));
    link.more(&plain());
    link.refused(Refusal::LargeFragment, &header_by_64(b"moof", 65_537));
    // One of the largest that is good is passed over.
    link.more(&sized(LUMP_BYTES));
    assert_eq!(link.end(&[]), Err(Refusal::Malformed));
}

#[test]
fn other_boxes_may_have_any_size() {
    for kind in [b"mdat", b"free", b"MOOF", b"moov"] {
        let mut link = Link::fresh();
        link.more(&plain());
        link.more(&header(kind, u32::MAX));
        let lump = [0; LUMP_BYTES];
        (0..100).for_each(|_| link.more(&lump));
        assert_eq!(link.end(&[]), Err(Refusal::Malformed));
    }
    // A movie fragment inside another box is not told.
    let mut link = Link::fresh();
    let inside = header(b"moof", 70_000);
    link.more(&[plain(), boxed(b"moov", &inside)].concat());
    assert_eq!(link.end(&[]), Ok(PLAIN.to_vec()));
}

#[test]
fn media_data_is_counted_and_not_kept() {
    let lump = vec![0xff; LUMP_BYTES];
    let lumps = 80_000; // five gigabytes, more than 32 bits count
    let media = 100 + lumps * lump.len() as u64;
    let mut link = Link::fresh();
    link.more(&header_by_64(b"mdat", 16 + media));
    let before = link.buffer.clone();
    let (of, reader, buffer) = (link.of, &mut link.reader, &mut link.buffer);
    for _ in 0..lumps {
        let taken = second::take_lump(of, reader, buffer, &lump, false, &mut []);
        assert_eq!(taken, Ok(0));
    }
    assert!(before == link.buffer, "kept");
    assert_eq!(link.end(&lump[..99]), Err(Refusal::Malformed));
    let end = [&lump[..100], &plain()].concat();
    assert_eq!(link.end(&end), Ok(PLAIN.to_vec()));
}

#[test]
fn where_the_framing_stopped_no_box_is_told() {
    let stops = [
        header(b"moof", 0),
        header(b"free", 0),
        header(b"free", 2),
        header(b"moof", 7),
        header_by_64(b"moof", 0),
        header_by_64(b"moof", 15),
        header_by_64(b"free", 8),
    ];
    for stop in stops {
        for length in [1, 5, 1000] {
            let mut link = Link::fresh();
            let bytes = [&plain()[..], &stop, &header(b"moof", 70_000), &plain()].concat();
            bytes.chunks(length).for_each(|lump| link.more(lump));
            assert_eq!(link.end(&[]), Err(Refusal::Malformed));
        }
    }
}

#[test]
fn what_is_refused_12_does_not_hide_it() {
    // A movie fragment whose own boxes are torn, and a decode time at the segment's top.
    for torn in [boxed(b"moof", &[1, 2, 3]), boxed(b"tfdt", &[])] {
        let mut link = Link::fresh();
        link.more(&torn);
        link.refused(Refusal::LargeFragment, &header(b"moof", 65_537));
    }
}
