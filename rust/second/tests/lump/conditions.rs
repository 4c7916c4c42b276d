//! Refusal 1: conditions that every reader handed out meets.

use second::{CutHeader, LumpFragment, LumpPlace, LumpReader, Refusal, LUMP_BYTES};

use crate::boxes::{boxed, large};
use crate::{plain, recorded, sized, Link, PLACES};

/// A header of which so many bytes have come.
fn cut(bytes: &[u8], count: usize) -> LumpPlace {
    let mut header = CutHeader::default();
    header.bytes[..bytes.len()].copy_from_slice(bytes);
    header.count = count;
    LumpPlace::Header(header)
}

fn body(left: u64, kept: bool) -> LumpPlace {
    LumpPlace::Body { left, kept }
}

#[track_caller]
fn judged(place: LumpPlace, fragment: LumpFragment, due: Option<Refusal>) {
    let reader = LumpReader { place, fragment };
    for last in [false, true] {
        let mut link = Link::fresh();
        link.reader = reader;
        let said = link.take(&[], last, PLACES, LUMP_BYTES).err();
        let ended = last.then_some(Refusal::Malformed); // none of these ends well
        assert_eq!(said, due.or(ended), "{reader:?}");
    }
}

#[track_caller]
fn fails(place: LumpPlace, fragment: LumpFragment) {
    judged(place, fragment, Some(Refusal::IllFormed));
}

#[track_caller]
fn holds(place: LumpPlace, fragment: LumpFragment) {
    judged(place, fragment, None);
}

#[test]
fn a_cut_header_is_cut() {
    let large = [0, 0, 0, 1, b'm', b'd', b'a', b't', 0, 0, 0, 0, 0, 0, 9, 9];
    for count in [1, 4, 7, 8, 9, 15] {
        holds(cut(&large[..count], count), LumpFragment::None);
    }
    fails(cut(&large, 16), LumpFragment::None);
    fails(cut(&large, usize::MAX), LumpFragment::None);
    // 8 bytes are all where the size is not 1.
    let small = [0, 0, 0, 9, b'm', b'd', b'a', b't'];
    holds(cut(&small[..7], 7), LumpFragment::Several);
    fails(cut(&small, 8), LumpFragment::None);
    fails(cut(&small, 15), LumpFragment::None);
    // Nothing stands past the count.
    fails(cut(&[0, 0, 0, 9], 3), LumpFragment::None);
    fails(cut(&large, 15), LumpFragment::None);
}

#[test]
fn a_body_has_bytes_to_come() {
    for fragment in [
        LumpFragment::None,
        LumpFragment::One(0),
        LumpFragment::Several,
    ] {
        fails(body(0, false), fragment);
        fails(body(0, true), fragment);
        holds(body(1, false), fragment);
        holds(body(u64::MAX, false), fragment);
    }
}

#[test]
fn what_is_kept_is_the_one_movie_fragment_and_has_its_room() {
    let most = LUMP_BYTES - 8;
    fails(body(1, true), LumpFragment::None);
    fails(body(1, true), LumpFragment::Several);
    holds(body(1, true), LumpFragment::One(most - 1));
    holds(body(most as u64, true), LumpFragment::One(0));
    fails(body(1, true), LumpFragment::One(most));
    fails(body(most as u64, true), LumpFragment::One(1));
    fails(body(u64::MAX, true), LumpFragment::One(1));
    for place in [LumpPlace::Lost, body(1, false), cut(&[0], 1)] {
        holds(place, LumpFragment::One(most));
        fails(place, LumpFragment::One(most + 1));
        fails(place, LumpFragment::One(usize::MAX));
    }
    fails(LumpPlace::default(), LumpFragment::One(most + 1));
}

#[test]
fn every_reader_handed_out_meets_them() {
    let torn = [plain(), large(b"moof", &[1]), vec![0; 9]].concat();
    let segments = [
        recorded(),
        [plain(), plain()].concat(),
        torn,
        [
            boxed(b"free", &[1]),
            sized(LUMP_BYTES),
            large(b"free", &[1]),
        ]
        .concat(),
    ];
    for segment in segments {
        for length in [1, 3, 1_000, 65_536] {
            if segment.len() / length > 1_000 {
                continue; // a lump is compared with all of the buffer
            }
            let mut link = Link::fresh();
            for lump in segment.chunks(length) {
                link.more(lump);
                link.more(&[]);
            }
        }
    }
}
