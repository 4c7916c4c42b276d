//! Refusal 1: a reader to which no bytes lead. Each clause of the condition fails by itself, and every
//! bit of a reader is turned.

use galumper::{LumpReader, Refusal, LUMP};

use crate::boxes::{boxed_by_64, fragment, header, segment};
use crate::link::{Link, PLACES};

const HEADING: u32 = 0;
const PASSING: u32 = 1;
const KEEPING: u32 = 2;
const STUCK: u32 = 3;

/// The longest body of a movie fragment box.
const MOST_KEPT: usize = LUMP - 8;

/// The longest body of any box.
const MOST_LEFT: u64 = u64::MAX - 16;

/// The first 15 bytes of a header with a size of 64 bits, then a zero.
const LARGE: [u8; 16] = *b"\0\0\0\x01mdat\0\0\0\0\0\0\x01\0";

/// A reader without header bytes that has met one movie fragment.
fn bare(phase: u32, left: u64, kept: usize) -> LumpReader {
    LumpReader {
        left,
        kept,
        phase,
        fragments: 1,
        ..LumpReader::default()
    }
}

/// A reader that has met so many bytes of a header.
fn heading(head: [u8; 16], seen: usize) -> LumpReader {
    LumpReader {
        head,
        seen,
        ..bare(HEADING, 0, 0)
    }
}

/// The same reader, having met so many movie fragments.
fn met(fragments: u32, reader: LumpReader) -> LumpReader {
    LumpReader {
        fragments,
        ..reader
    }
}

/// Whether a reader is refused 1, by every call and before anything else.
fn is_refused(reader: LumpReader) -> bool {
    let mut link = Link::fresh();
    link.reader = reader;
    let judged = link.clone().take(&[], false, LUMP, PLACES) == Err(Refusal::IllFormed);
    let (large, long) = (header(b"moof", u32::MAX), vec![0; LUMP + 1]);
    for (lump, bytes) in [
        (&large, LUMP),
        (&long, LUMP),
        (&large, LUMP - 1),
        (&long, 0),
    ] {
        for last in [false, true] {
            let said = link.clone().take(lump, last, bytes, 0);
            assert_eq!(said == Err(Refusal::IllFormed), judged, "{reader:?}");
        }
    }
    judged
}

#[track_caller]
fn holds(reader: LumpReader) {
    assert!(!is_refused(reader), "{reader:?}");
}

#[track_caller]
fn fails(reader: LumpReader) {
    assert!(is_refused(reader), "{reader:?}");
}

#[test]
fn zeros_stand_after_the_header_bytes_met() {
    for seen in [8, 9, 14, 15] {
        let mut head = [0; 16];
        head[..seen].copy_from_slice(&LARGE[..seen]);
        holds(heading(head, seen));
        for place in seen..16 {
            let mut head = head;
            head[place] = 1;
            fails(heading(head, seen));
        }
    }
    for phase in [HEADING, STUCK] {
        for place in 0..16 {
            let mut reader = bare(phase, 0, 0);
            holds(reader);
            reader.head[place] = 0x80;
            fails(reader);
        }
    }
}

#[test]
fn two_stand_for_more_movie_fragments() {
    for phase in [HEADING, STUCK] {
        for fragments in [0, 1, 2] {
            holds(met(fragments, bare(phase, 0, 0)));
        }
        for fragments in [3, 1 << 31, u32::MAX] {
            fails(met(fragments, bare(phase, 0, 0)));
        }
    }
}

#[test]
fn what_is_kept_is_a_movie_fragments_and_fits() {
    for (phase, left) in [(HEADING, 0), (PASSING, 1), (STUCK, 0)] {
        for kept in [1, MOST_KEPT] {
            fails(met(0, bare(phase, left, kept)));
            holds(met(1, bare(phase, left, kept)));
            holds(met(2, bare(phase, left, kept)));
        }
        for kept in [MOST_KEPT + 1, usize::MAX] {
            fails(bare(phase, left, kept));
        }
    }
}

#[test]
fn a_header_is_not_whole() {
    holds(heading(LARGE, 15));
    fails(heading(LARGE, 16));
    fails(heading(LARGE, 17));
    fails(heading(LARGE, usize::MAX));
    // Past 8 bytes the size is the number 1.
    let mut head = [0; 16];
    for first in [[0, 0, 0, 0], [0, 0, 0, 9], [0, 1, 0, 1], [1, 0, 0, 0]] {
        head[..4].copy_from_slice(&first);
        holds(heading(head, 7));
        fails(heading(head, 8));
        fails(heading(head, 15));
    }
}

#[test]
fn a_header_has_no_body() {
    for left in [1, u64::MAX] {
        fails(bare(HEADING, left, 0));
        let reader = heading(LARGE, 15);
        fails(LumpReader { left, ..reader });
    }
}

#[test]
fn a_body_has_bytes_to_come_and_no_header() {
    for phase in [PASSING, KEEPING] {
        let body = bare(phase, 1, 0);
        holds(body);
        fails(LumpReader { left: 0, ..body });
        fails(LumpReader { seen: 1, ..body });
        let seen = 1 << 63;
        fails(LumpReader { seen, ..body });
    }
}

#[test]
fn no_size_announces_more() {
    holds(bare(PASSING, MOST_LEFT, 0));
    fails(bare(PASSING, MOST_LEFT + 1, 0));
    fails(bare(PASSING, u64::MAX, 0));
}

#[test]
fn the_body_that_is_kept_will_fit() {
    for kept in [0, 1, MOST_KEPT - 1] {
        let left = (MOST_KEPT - kept) as u64;
        holds(bare(KEEPING, left, kept));
        fails(bare(KEEPING, left + 1, kept));
        fails(bare(KEEPING, u64::MAX, kept));
        fails(bare(KEEPING, (kept as u64).wrapping_neg(), kept));
    }
    fails(bare(KEEPING, 1, MOST_KEPT));
}

#[test]
fn the_body_that_is_kept_is_the_first_movie_fragments() {
    for fragments in [0, 2] {
        fails(met(fragments, bare(KEEPING, 1, 0)));
    }
}

#[test]
fn nothing_is_known_where_no_box_can_be_told() {
    let stuck = bare(STUCK, 0, 0);
    holds(stuck);
    fails(LumpReader { left: 1, ..stuck });
    fails(LumpReader { seen: 1, ..stuck });
}

#[test]
fn a_phase_that_is_none() {
    for phase in [4, 5, 255, 256, 1 << 16, u32::MAX] {
        for left in [0, 1] {
            fails(bare(phase, left, 0));
        }
    }
}

/// The condition, in one line for each phase.
fn is_well_formed(reader: &LumpReader) -> bool {
    let &LumpReader {
        head,
        left,
        kept,
        seen,
        phase,
        fragments,
    } = reader;
    let past = head.iter().skip(seen).all(|byte| *byte == 0);
    let counted = fragments <= 2 && kept <= MOST_KEPT && (fragments > 0 || kept == 0);
    let large = head.starts_with(&[0, 0, 0, 1]);
    let all = kept as u128 + u128::from(left);
    past && counted
        && match phase {
            HEADING => left == 0 && (seen < 8 || large && seen < 16),
            PASSING => seen == 0 && (1..=MOST_LEFT).contains(&left),
            KEEPING => seen == 0 && left > 0 && all <= MOST_KEPT as u128 && fragments == 1,
            STUCK => seen == 0 && left == 0,
            _ => false,
        }
}

/// A reader with one of its 384 bits turned.
fn turned(mut reader: LumpReader, bit: usize) -> LumpReader {
    match bit {
        0..128 => reader.head[bit / 8] ^= 1 << (bit % 8),
        128..192 => reader.left ^= 1 << (bit - 128),
        192..256 => reader.kept ^= 1 << (bit - 192),
        256..320 => reader.seen ^= 1 << (bit - 256),
        320..352 => reader.phase ^= 1 << (bit - 320),
        _ => reader.fragments ^= 1 << (bit - 352),
    }
    reader
}

#[test]
fn every_bit_turned() {
    for reader in [
        LumpReader::default(),
        heading(LARGE, 15),
        bare(PASSING, 1000, 64),
        bare(PASSING, MOST_LEFT, 0),
        bare(KEEPING, 1000, 64),
        bare(STUCK, 0, MOST_KEPT),
    ] {
        holds(reader);
        for bit in 0..384 {
            let turned = turned(reader, bit);
            assert_eq!(is_refused(turned), !is_well_formed(&turned), "{turned:?}");
        }
    }
}

#[test]
fn every_reader_handed_out_is_well_formed() {
    let second = [fragment(), fragment()].concat();
    let stuck = [fragment(), header(b"free", 1), vec![0; 20]].concat();
    for bytes in [segment(), second, stuck, boxed_by_64(b"moof", &[0; 20])] {
        let mut link = Link::fresh();
        for byte in bytes {
            link.more(&[byte]);
            assert!(is_well_formed(&link.reader), "{:?}", link.reader);
        }
    }
}
