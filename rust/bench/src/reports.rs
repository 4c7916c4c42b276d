//! The table of the reports of long lines.

use crate::line::{Line, Order};
use crate::measure::{Case, Measure, Report};
use crate::rounds::{measured, ratios, Times};

const SIZES: [usize; 3] = [256, 512, 1024];

const REPORTS: [(Report, &str); 3] = [
    (Report::Track, "a track's ranges"),
    (Report::Common, "common ranges of 2 tracks"),
    (Report::Walked, "frames taken by a track's ranges"),
];

/// What the list is lent: places enough for any line, and far fewer than the ranges of one with gaps.
const ENOUGH: (usize, &str) = (1024, "1,024");
const FEW: (usize, &str) = (4, "4");

const ORDERS: [(Order, &str); 4] = [
    (Order::Decoded, "as decoded"),
    (Order::BFrames, "I P B B"),
    (Order::GroupsReversed, "reversed by 16"),
    (Order::Reversed, "reversed"),
];

/// A row of the table: its words, and what is timed.
struct Row {
    words: String,
    report: Report,
    line: Line,
    places: usize,
}

/// Each report of each line into places enough, and of the lines with gaps into a few.
fn rows() -> Vec<Row> {
    let mut rows = Vec::new();
    for (report, name) in REPORTS {
        for (gaps, (places, lent)) in [(false, ENOUGH), (true, ENOUGH), (true, FEW)] {
            let ranges = if gaps { "each frame" } else { "one" };
            for (order, shown) in ORDERS {
                rows.push(Row {
                    words: format!("{name} | {lent} | {ranges} | {shown}"),
                    report,
                    line: Line { order, gaps },
                    places,
                });
            }
        }
    }
    rows
}

/// Times the reports of both, by the order in which a line's frames are shown, its ranges, the places
/// lent and its frames.
pub fn report(proved: &mut dyn Measure, second: &mut dyn Measure) -> String {
    let rows = rows();
    let cases: Vec<Case> = rows
        .iter()
        .flat_map(|row| SIZES.map(|frames| Case::Report(row.report, row.line, row.places, frames)))
        .collect();
    let times = measured(&cases, proved, second);
    let mut text =
        String::from("| report | places | ranges | shown | 256 frames | 512 | 1,024 |\n");
    text.push_str("|---|---|---|---|---|---|---|\n");
    for (row, times) in rows.iter().zip(times.chunks(SIZES.len())) {
        let cells: Vec<String> = times.iter().map(Times::to_string).collect();
        text.push_str(&format!("| {} | {} |\n", row.words, cells.join(" | ")));
    }
    text.push_str(&format!("\nRatios of reports: {}.\n", ratios(&times)));
    text
}
