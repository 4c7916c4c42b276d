//! Counting the segments that were cut into lumps, by the way and by how they ended, and what stood
//! beside the lumps.

use std::fmt::Write;

use crate::lumps::cutting::{Beside, Cutting, Way};

const WAYS: [&str; 3] = ["into two, at any place", "byte by byte", "anywhere"];

/// How a segment ended at first: listed, or refused by a number.
const ENDS: [(Option<u32>, &str); 5] = [
    (None, "listed"),
    (Some(12), "12"),
    (Some(4), "4"),
    (Some(10), "10"),
    (Some(14), "14"),
];

/// How cut segments ended, and what stood beside the lumps.
#[derive(Clone, Debug, Default)]
pub(super) struct Cuttings {
    ends: [[u64; ENDS.len()]; WAYS.len()],
    beside: [u64; Beside::ALL.len()],
}

impl Cuttings {
    /// Counts a cutting by what its calls were answered.
    pub(super) fn count(&mut self, cutting: &Cutting, results: &[Result<usize, u32>]) {
        let way = match cutting.way {
            Way::Two(_) => 0,
            Way::Bytes => 1,
            Way::Anywhere => 2,
        };
        let end = cutting.end(results).map(|end| end.err());
        let end = ENDS.iter().position(|(refusal, _)| end == Some(*refusal));
        if let Some(end) = end {
            self.ends[way][end] += 1;
        }
        for (times, (beside, _)) in self.beside.iter_mut().zip(Beside::ALL) {
            *times += u64::from(cutting.beside.contains(&beside));
        }
    }

    /// What was never met.
    pub(super) fn gaps(&self) -> Vec<String> {
        let mut gaps = Vec::new();
        for (way, ends) in WAYS.iter().zip(self.ends) {
            let missed = ENDS.iter().zip(ends).filter(|(_, times)| *times == 0);
            gaps.extend(missed.map(|((_, end), _)| format!("cut {way}, {end}: never")));
        }
        let missed = Beside::ALL.iter().zip(self.beside);
        let missed = missed.filter(|(_, times)| *times == 0);
        gaps.extend(missed.map(|((_, words), _)| format!("beside lumps, {words}: never")));
        gaps
    }

    /// The counts as tables.
    pub(super) fn tables(&self) -> String {
        let ends = ENDS.map(|(_, end)| end).join(" | ");
        let mut text = format!("\n| Segment cut | {ends} |\n|---|---|---|---|---|---|\n");
        for (way, ends) in WAYS.iter().zip(self.ends) {
            let cells = ends.map(|times| times.to_string()).join(" | ");
            let _ = writeln!(text, "| {way} | {cells} |");
        }
        text.push_str("\n| Beside lumps | Times |\n|---|---|\n");
        for ((_, words), times) in Beside::ALL.iter().zip(self.beside) {
            let _ = writeln!(text, "| {words} | {times} |");
        }
        text
    }
}
