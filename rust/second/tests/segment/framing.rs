//! Boxes, and refusal 12.

use std::slice;

use crate::boxes::{boxed, fragment, full, large, run, tfdt, tfhd, traf, words};
use crate::{lists, malformed, plain, runs, PLAIN};

#[test]
fn other_boxes_are_skipped() {
    let other = boxed(b"free", &[1, 2, 3]);
    let inside = [
        tfhd(0, &[1]),
        other.clone(),
        tfdt(0),
        other.clone(),
        plain(),
    ];
    // Neither an odd header of the movie fragment nor a box of another case is looked into.
    let moof = [
        boxed(b"mfhd", &[9]),
        boxed(b"MOOF", &[]),
        traf(&inside),
        other.clone(),
    ];
    let segment = [other.clone(), boxed(b"moof", &moof.concat()), other].concat();
    lists(&segment, &PLAIN);
    // A movie fragment inside another box is none, and neither is a run outside its fragment.
    malformed(&boxed(b"mdat", &runs(&[plain()])));
    lists(&[plain(), runs(&[plain()])].concat(), &PLAIN);
}

#[test]
fn a_segment_without_this_track_lists_nothing() {
    lists(&fragment(&[]), &[]);
    lists(&fragment(&[traf(&[tfhd(0, &[2])])]), &[]);
    lists(&runs(&[]), &[]);
    lists(&runs(&[run(0, 0xf00, &[0])]), &[]);
}

#[test]
fn size_1_announces_64_bits() {
    let inside = [large(b"tfhd", &words(&[0, 1])), tfdt(0), plain()].concat();
    let segment = large(b"moof", &large(b"traf", &inside));
    lists(&segment, &PLAIN);
    let cut = |length: usize| [&[0, 0, 0, 1][..], b"free", &vec![0; length]].concat();
    malformed(&[fragment(&[]), cut(0)].concat());
    malformed(&[fragment(&[]), cut(7)].concat());
    let sized = |size: u64| {
        let header = [&[0, 0, 0, 1][..], b"free", &size.to_be_bytes()].concat();
        [fragment(&[]), header].concat()
    };
    for size in [0, 1, 8, 15, 17, 1 << 32, u64::MAX] {
        malformed(&sized(size));
    }
    lists(&sized(16), &[]);
}

#[test]
fn sizes_0_to_7_are_malformed_in_every_parent() {
    for size in [0, 2, 7, 9, 0xffff_ffff] {
        in_every_parent(&[words(&[size]), b"free".to_vec()].concat());
    }
}

#[test]
fn stray_bytes_are_malformed_in_every_parent() {
    for length in 1..8 {
        in_every_parent(&vec![0; length]);
    }
}

/// Bytes that are no box, at the end of the segment, of the movie fragment, and of a track fragment
/// of this track and of another.
#[track_caller]
fn in_every_parent(bytes: &[u8]) {
    let good = traf(&[tfhd(0, &[1]), tfdt(0), plain()]);
    let bad = bytes.to_vec();
    malformed(&[fragment(slice::from_ref(&good)), bad.clone()].concat());
    malformed(&fragment(&[good.clone(), bad.clone()]));
    malformed(&fragment(&[traf(&[
        tfhd(0, &[1]),
        tfdt(0),
        plain(),
        bad.clone(),
    ])]));
    malformed(&fragment(&[good, traf(&[tfhd(0, &[2]), bad])]));
}

#[test]
fn exactly_one_movie_fragment() {
    malformed(&[]);
    malformed(&boxed(b"mdat", &[]));
    malformed(&[fragment(&[]), fragment(&[])].concat());
}

#[test]
fn exactly_one_header_before_any_run_whatever_the_track() {
    malformed(&fragment(&[traf(&[])]));
    malformed(&fragment(&[traf(&[tfdt(0)])]));
    for id in [1, 2] {
        let header = tfhd(0, &[id]);
        malformed(&fragment(&[traf(&[
            header.clone(),
            header.clone(),
            tfdt(0),
        ])]));
        malformed(&fragment(&[traf(&[tfdt(0), plain(), header.clone()])]));
        malformed(&fragment(&[traf(&[
            header.clone(),
            tfdt(0),
            plain(),
            header,
        ])]));
    }
}

#[test]
fn a_header_is_read_in_full_whatever_the_track() {
    for id in [1, 2] {
        let with = |header: Vec<u8>| fragment(&[traf(&[header, tfdt(0)])]);
        malformed(&with(full(b"tfhd", 1, 0, &[id])));
        malformed(&with(boxed(b"tfhd", &[0, 0, 0])));
        malformed(&with(boxed(b"tfhd", &words(&[0]))));
        malformed(&with(tfhd(0x3b, &[id, 0, 0, 0, 0, 0])));
        malformed(&with(tfhd(0x01, &[id, 0])));
        // Longer is good.
        lists(&with(tfhd(0x01, &[id, 0, 0, 5])), &[]);
    }
}

#[test]
fn exactly_one_decode_time_before_any_run_of_this_track() {
    let header = tfhd(0, &[1]);
    malformed(&fragment(&[traf(slice::from_ref(&header))]));
    malformed(&fragment(&[traf(&[header.clone(), plain()])]));
    malformed(&fragment(&[traf(&[header.clone(), plain(), tfdt(0)])]));
    malformed(&fragment(&[traf(&[header.clone(), tfdt(0), tfdt(0)])]));
    malformed(&fragment(&[traf(&[
        tfdt(0),
        header.clone(),
        tfdt(0),
        plain(),
    ])]));
    malformed(&fragment(&[traf(&[
        header.clone(),
        tfdt(0),
        plain(),
        tfdt(0),
    ])]));
    // Before the header is good.
    lists(&fragment(&[traf(&[tfdt(0), header, plain()])]), &PLAIN);
}

#[test]
fn decode_times_of_two_versions() {
    let at = |tfdt: Vec<u8>| fragment(&[traf(&[tfhd(0, &[1]), tfdt, run(0, 0, &[1])])]);
    let row = |dts| [[7, dts, dts, 40_000, 1, 9]];
    lists(&at(full(b"tfdt", 0, 0, &[0xffff])), &row(65_535_000));
    lists(&at(full(b"tfdt", 1, 0, &[0, 0xffff])), &row(65_535_000));
    lists(&at(full(b"tfdt", 0, 0xff_ffff, &[5, 6, 7])), &row(5_000));
    malformed(&at(full(b"tfdt", 0, 0, &[])));
    malformed(&at(full(b"tfdt", 1, 0, &[0])));
    malformed(&at(full(b"tfdt", 2, 0, &[0, 0])));
    malformed(&at(boxed(b"tfdt", &[0, 0])));
}

#[test]
fn runs_have_room_for_fields_and_columns() {
    malformed(&runs(&[boxed(b"trun", &[0, 0, 0])]));
    malformed(&runs(&[boxed(b"trun", &words(&[0]))]));
    malformed(&runs(&[run(2, 0, &[0])]));
    malformed(&runs(&[run(0, 0x1, &[0])]));
    malformed(&runs(&[run(0, 0x4, &[0])]));
    malformed(&runs(&[run(0, 0x5, &[0, 0])]));
    malformed(&runs(&[run(0, 0x100, &[2, 40])]));
    malformed(&runs(&[run(0, 0xf00, &[u32::MAX, 1, 1, 1, 1])]));
    // One byte short, and one longer.
    let short = words(&[0x100, 1, 40]);
    malformed(&runs(&[boxed(b"trun", &short[..11])]));
    lists(&runs(&[run(0, 0, &[2, 3])]), &PLAIN);
}

#[test]
fn of_other_tracks_the_header_alone_is_read() {
    let odd = [
        tfhd(0, &[2]),
        boxed(b"tfdt", &[]),
        full(b"tfdt", 9, 0, &[]),
        boxed(b"trun", &[5]),
        run(3, 0xf00, &[9]),
        tfdt(0),
    ];
    lists(
        &fragment(&[traf(&odd), traf(&[tfhd(0, &[1]), tfdt(0), plain()])]),
        &PLAIN,
    );
}
