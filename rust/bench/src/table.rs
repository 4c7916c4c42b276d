//! The tables of the calls, of segments and of batches.

use crate::measure::{Call, Case, Measure, Way};
use crate::rounds::{measured, ratios, Times};

const TRACKS: [u32; 3] = [1, 2, 4];

const SIZES: [usize; 4] = [0, 256, 512, 1024];

/// The frames of the segments: a second, ten and a hundred.
pub const SEGMENTS: [u32; 3] = [25, 250, 2500];

const CALLS: [(Call, &str); 11] = [
    (
        Call::AppendLast,
        "append after the last (refused 8 at 1,024)",
    ),
    (Call::AppendOver, "append over the middle"),
    (Call::Remove, "remove the oldest second"),
    (Call::Abort, "abort"),
    (Call::SetMode, "set the mode"),
    (Call::SetOffset, "set the offset"),
    (Call::SetWindowStart, "set the window start"),
    (Call::SetWindowEnd, "set the window end"),
    (Call::ReadSettings, "read the settings"),
    (Call::TrackRanges, "a track's ranges"),
    (Call::CommonRanges, "common ranges"),
];

/// Times the cases of both: the calls by tracks and sizes, the segments by their frames, a batch
/// beside single appends by tracks, then the survey line and the creations, which have no sizes. A
/// creation is by value there and in place here, so that its ratio says little, and is not counted
/// among the others.
pub fn report(proved: &mut dyn Measure, second: &mut dyn Measure) -> String {
    let mut cases = Vec::new();
    for tracks in TRACKS {
        for (call, _) in CALLS {
            cases.extend(SIZES.map(|size| Case::Call(call, tracks, size)));
        }
    }
    let calls = cases.len();
    cases.extend(SEGMENTS.map(Case::Segment));
    cases.extend(TRACKS.map(|tracks| Case::Frames(Way::OneByOne, tracks)));
    cases.extend(TRACKS.map(|tracks| Case::Frames(Way::Batch, tracks)));
    cases.push(Case::Survey);
    let compared = cases.len();
    cases.extend(TRACKS.map(Case::Create));

    let times = measured(&cases, proved, second);
    let (compared, creations) = times.split_at(compared);
    let (calls, rest) = compared.split_at(calls);
    let (segments, rest) = rest.split_at(SEGMENTS.len());
    let (singles, rest) = rest.split_at(TRACKS.len());
    let (batches, survey) = rest.split_at(TRACKS.len());
    let survey = &survey[0];
    let creations: Vec<String> = creations.iter().map(Times::to_string).collect();
    format!(
        "{}\n{}\n{}\n\
         Survey line, one append of 100,000: {survey}.\n\
         Creation, on 1, 2 and 4 tracks: {}.\n\
         Ratios without creation: {}.\n",
        table(calls),
        segment_table(segments),
        batch_table(singles, batches),
        creations.join(", "),
        ratios(compared),
    )
}

/// A line for each call on so many tracks, a cell for each size.
fn table(times: &[Times]) -> String {
    let mut text = String::from("| call | tracks | 0 frames | 256 | 512 | 1,024 |\n");
    text.push_str("|---|---|---|---|---|---|\n");
    let names = TRACKS
        .into_iter()
        .flat_map(|tracks| CALLS.map(|(_, name)| format!("{name} | {tracks}")));
    for (name, times) in names.zip(times.chunks(SIZES.len())) {
        let cells: Vec<String> = times.iter().map(Times::to_string).collect();
        text.push_str(&format!("| {name} | {} |\n", cells.join(" | ")));
    }
    text
}

/// A line for each segment, with the frames that are listed in a second.
fn segment_table(times: &[Times]) -> String {
    let mut text =
        String::from("| listing a segment of | time | frames a second, proved | second |\n");
    text.push_str("|---|---|---|---|\n");
    for (frames, times) in SEGMENTS.into_iter().zip(times) {
        let [proved, second] =
            [times.proved, times.second].map(|micros| f64::from(frames) / micros);
        text.push_str(&format!(
            "| {frames} frames | {times} | {proved:.1} million | {second:.1} million |\n"
        ));
    }
    text
}

/// A line for each count of tracks: 64 frames by a call each and by one call, and how many times
/// cheaper the one call is.
fn batch_table(singles: &[Times], batches: &[Times]) -> String {
    let mut text = String::from(
        "| 64 frames after 960, on | one by one | in one call | times cheaper, proved | second |\n",
    );
    text.push_str("|---|---|---|---|---|\n");
    for (tracks, (single, batch)) in TRACKS.into_iter().zip(singles.iter().zip(batches)) {
        let plural = if tracks == 1 { "" } else { "s" };
        let proved = single.proved / batch.proved;
        let second = single.second / batch.second;
        text.push_str(&format!(
            "| {tracks} track{plural} | {single} | {batch} | {proved:.1} | {second:.1} |\n"
        ));
    }
    text
}
