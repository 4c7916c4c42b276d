//! The samples of runs: columns, defaults, flags, and times in microseconds.

use second::{Refusal, SegmentTrack};

use crate::boxes::{fragment, run, tfdt, tfhd, traf};
use crate::{list, lists, plain, refused, runs, NON_SYNC, OF, PLAIN};

#[test]
fn one_run_of_defaults() {
    lists(&runs(&[plain()]), &PLAIN);
}

#[test]
fn runs_go_on_and_fragments_start_anew() {
    let segment = fragment(&[
        traf(&[tfhd(0, &[1]), tfdt(10), plain(), run(0, 0x100, &[1, 5])]),
        traf(&[tfhd(0, &[2]), tfdt(99), plain()]),
        traf(&[tfhd(0, &[1]), tfdt(1), plain()]),
    ]);
    let times: Vec<[i64; 2]> = list(OF, &segment)
        .expect("frames")
        .iter()
        .map(|row| [row[2], row[3]])
        .collect();
    let wanted = [
        [10_000, 40_000],
        [50_000, 40_000],
        [90_000, 5_000],
        [1_000, 40_000],
        [41_000, 40_000],
    ];
    assert_eq!(times, wanted);
}

#[test]
fn every_column_in_its_order() {
    let columns = [1, 30, 500, NON_SYNC, 7];
    lists(
        &runs(&[run(0, 0xf00, &columns)]),
        &[[7, 7_000, 0, 30_000, 0, 500]],
    );
    lists(
        &runs(&[run(0, 0xa00, &[1, 500, 7])]),
        &[[7, 7_000, 0, 40_000, 1, 500]],
    );
}

#[test]
fn composition_offsets_are_signed_in_version_1_only() {
    let below = -3_i32 as u32;
    lists(
        &runs(&[run(1, 0x800, &[1, below])]),
        &[[7, -3_000, 0, 40_000, 1, 9]],
    );
    // 4,294,967,293 milliseconds are beyond the limit; at a finer timescale they are not.
    refused(Refusal::OfferedLimits, &runs(&[run(0, 0x800, &[1, below])]));
    let finer = SegmentTrack {
        timescale: 1_000_000,
        ..OF
    };
    let rows = list(finer, &runs(&[run(0, 0x800, &[1, below])]));
    assert_eq!(rows, Ok(vec![[7, i64::from(below), 0, 40, 1, 9]]));
}

#[test]
fn defaults_of_the_header_else_of_the_call() {
    let with =
        |flags, fields: &[u32]| fragment(&[traf(&[tfhd(flags, fields), tfdt(0), run(0, 0, &[1])])]);
    // Base data offset (two words) and description index are passed over.
    let all = [1, 0xffff_ffff, 0xffff_ffff, 0xffff_ffff, 20, 30, NON_SYNC];
    lists(&with(0x3b, &all), &[[7, 0, 0, 20_000, 0, 30]]);
    lists(&with(0x08, &[1, 20]), &[[7, 0, 0, 20_000, 1, 9]]);
    lists(&with(0x10, &[1, 30]), &[[7, 0, 0, 40_000, 1, 30]]);
    lists(&with(0x20, &[1, NON_SYNC]), &[[7, 0, 0, 40_000, 0, 9]]);
    // Flags that announce no field.
    lists(&with(0xfd_ffc4, &[1]), &[[7, 0, 0, 40_000, 1, 9]]);
}

#[test]
fn first_flags_override_the_first_sample_s_own() {
    let flagged = |segment: &[u8]| -> Vec<i64> {
        let rows = list(OF, segment).expect("frames");
        rows.iter().map(|row| row[4]).collect()
    };
    assert_eq!(flagged(&runs(&[run(0, 0x4, &[2, NON_SYNC])])), [0, 1]);
    let over_own = [2, 0, NON_SYNC, NON_SYNC];
    assert_eq!(flagged(&runs(&[run(0, 0x404, &over_own)])), [1, 0]);
    // After a data offset, and in each run anew.
    let again = run(0, 0x5, &[2, 0xffff_ffff, NON_SYNC]);
    assert_eq!(flagged(&runs(&[again.clone(), again])), [0, 1, 0, 1]);
    // Only the non-sync bit counts.
    assert_eq!(flagged(&runs(&[run(0, 0x4, &[1, !NON_SYNC])])), [1]);
}

#[test]
fn times_are_rounded_down_and_durations_are_differences() {
    let of = SegmentTrack {
        timescale: 3,
        duration: 1,
        ..OF
    };
    let rows = list(of, &runs(&[run(0, 0, &[3])])).expect("frames");
    let durations: Vec<[i64; 2]> = rows.iter().map(|row| [row[1], row[3]]).collect();
    assert_eq!(
        durations,
        [[0, 333_333], [333_333, 333_333], [666_666, 333_334]]
    );
    // Below zero too: -1/3 s is -333,334 microseconds.
    let rows = list(of, &runs(&[run(1, 0x800, &[1, -1_i32 as u32])]));
    assert_eq!(rows, Ok(vec![[7, -333_334, 0, 333_334, 1, 9]]));
}

#[test]
fn the_track_number_is_not_judged() {
    for track in [0, 5, u32::MAX] {
        let rows = list(SegmentTrack { track, ..OF }, &runs(&[run(0, 0, &[1])]));
        assert_eq!(rows, Ok(vec![[i64::from(track), 0, 0, 40_000, 1, 9]]));
    }
}
