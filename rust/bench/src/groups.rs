//! The table of walks by group.

use crate::grouping::Grouping;
use crate::measure::{Case, Measure, Walk};
use crate::rounds::{measured, ratios, Times};

/// A random access point each so many frames: each second, and two in the store.
const POINTS: [usize; 2] = [25, 512];

/// A row of the table: its words, what is timed, and how many frames go, for either distance of points.
struct Row {
    call: &'static str,
    groups: &'static str,
    walk: Walk,
    grouping: Grouping,
    lines: [usize; 2],
}

const fn row(
    call: &'static str,
    groups: &'static str,
    walk: Walk,
    grouping: Grouping,
    lines: [usize; 2],
) -> Row {
    Row {
        call,
        groups,
        walk,
        grouping,
        lines,
    }
}

const AFTER: &str = "append after the last";
const OVER: &str = "append over the second";
const REMOVE: &str = "remove the oldest second";

const ROWS: [Row; 9] = [
    row(AFTER, "one", Walk::After, Grouping::One, [0, 0]),
    row(AFTER, "each frame", Walk::After, Grouping::Each, [0, 0]),
    row(OVER, "one", Walk::Over, Grouping::One, [24, 511]),
    row(OVER, "two by turns", Walk::Over, Grouping::Turns, [12, 511]),
    row(OVER, "each frame", Walk::Over, Grouping::Each, [1, 1]),
    row(
        OVER,
        "each frame, scattered",
        Walk::Over,
        Grouping::Scattered,
        [1, 1],
    ),
    row(
        OVER,
        "each frame, 4,096 apart",
        Walk::Over,
        Grouping::Apart,
        [1, 1],
    ),
    row(REMOVE, "one", Walk::Remove, Grouping::One, [25, 512]),
    row(
        REMOVE,
        "two by turns",
        Walk::Remove,
        Grouping::Turns,
        [37, 767],
    ),
];

/// Times the walks of both over a store of 1,023 frames, by its groups and its random access points.
pub fn report(proved: &mut dyn Measure, second: &mut dyn Measure) -> String {
    let case = |row: &Row, (points, lines)| Case::Walk(row.walk, row.grouping, points, lines);
    let cases: Vec<Case> = ROWS
        .iter()
        .flat_map(|row| POINTS.into_iter().zip(row.lines).map(|at| case(row, at)))
        .collect();
    let times = measured(&cases, proved, second);
    let mut text = String::from("| call | groups | a point each 25 frames | each 512 |\n");
    text.push_str("|---|---|---|---|\n");
    for (row, times) in ROWS.iter().zip(times.chunks(POINTS.len())) {
        let cells: Vec<String> = times.iter().map(Times::to_string).collect();
        let words = [row.call, row.groups].join(" | ");
        text.push_str(&format!("| {words} | {} |\n", cells.join(" | ")));
    }
    text.push_str(&format!(
        "\nRatios of walks by group: {}.\n",
        ratios(&times)
    ));
    text
}
