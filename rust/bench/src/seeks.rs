//! The table of seeks.

use crate::grouping::Grouping;
use crate::measure::{Case, Measure};
use crate::rounds::{measured, ratios, Times};

const SIZES: [usize; 3] = [256, 512, 1024];

/// A row of the table: its words, from how many frames to how many there is a random access point, and
/// how many frames are to be decoded, for each size.
struct Row {
    points: &'static str,
    groups: &'static str,
    every: usize,
    grouping: Grouping,
    counts: [usize; SIZES.len()],
}

const EACH: &str = "each 25 frames";
const ONE: &str = "the first frame";

const ROWS: [Row; 3] = [
    Row {
        points: EACH,
        groups: "one",
        every: 25,
        grouping: Grouping::One,
        counts: [6, 12, 24],
    },
    Row {
        points: EACH,
        groups: "two by turns",
        every: 25,
        grouping: Grouping::Turns,
        counts: [16, 19, 25],
    },
    Row {
        points: ONE,
        groups: "one",
        every: 1024,
        grouping: Grouping::One,
        counts: SIZES,
    },
];

/// Times the seeks of both for an instant in the last frame of a track, by its random access points,
/// its groups and its frames.
pub fn report(proved: &mut dyn Measure, second: &mut dyn Measure) -> String {
    let case = |row: &Row, (frames, count)| Case::Seek(row.grouping, row.every, frames, count);
    let cases: Vec<Case> = ROWS
        .iter()
        .flat_map(|row| SIZES.into_iter().zip(row.counts).map(|at| case(row, at)))
        .collect();
    let times = measured(&cases, proved, second);
    let mut text =
        String::from("| seek into the last frame, a point | groups | 256 frames | 512 | 1,024 |\n");
    text.push_str("|---|---|---|---|---|\n");
    for (row, times) in ROWS.iter().zip(times.chunks(SIZES.len())) {
        let cells: Vec<String> = times.iter().map(Times::to_string).collect();
        let words = [row.points, row.groups].join(" | ");
        text.push_str(&format!("| {words} | {} |\n", cells.join(" | ")));
    }
    text.push_str(&format!("\nRatios of seeks: {}.\n", ratios(&times)));
    text
}
