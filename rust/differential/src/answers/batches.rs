//! Counting batches: by what they were lent, by what stopped them, and by their lines.

use std::fmt::Write;

use second::{BATCH_FRAMES, BATCH_LINES, FRAME_PLACES};

use crate::told::{batch, fates};

const FRAMES: [&str; 3] = ["none", "1 to 64", "over 64"];

const LINES: [&str; 3] = ["under 1,024", "1,024 to 1,087", "1,088 and more"];

/// The refusals that stop a batch, in the order in which a frame is given them.
const STOPS: [u32; 5] = [3, 4, 9, 7, 8];

/// The most lines: of all frames stored and offered one is left, where any is taken out.
const MOST_LINES: usize = BATCH_LINES - 1;

/// What batches were lent and answered.
#[derive(Clone, Debug, Default)]
pub(super) struct Batches {
    /// By frames and lines lent: those refused 1, and those that were answered what is due then.
    lent: [[[u64; 2]; LINES.len()]; FRAMES.len()],
    /// Answers that are not due.
    undue: u64,
    /// By the refusal that stopped it: at its first frame, and later.
    stops: [[u64; 2]; STOPS.len()],
    /// The lines of the batch that had most.
    most_lines: usize,
}

/// The kind of a list of so many frames.
fn frames_kind(frames: usize) -> usize {
    match frames {
        0 => 0,
        1..=BATCH_FRAMES => 1,
        _ => 2,
    }
}

/// The kind of a fate list of so many lines.
fn lines_kind(lines: usize) -> usize {
    match lines {
        0..FRAME_PLACES => 0,
        FRAME_PLACES..BATCH_LINES => 1,
        _ => 2,
    }
}

/// What a batch of some kinds is answered on a well-formed state: its refusal, or none.
fn due(frames: usize, lines: usize) -> Option<&'static str> {
    match (frames, lines) {
        (2, _) => Some("refused 13"),
        (_, 2) => None,
        _ => Some("refused 2"),
    }
}

impl Batches {
    /// Counts a batch of so many frames, lent so many lines.
    pub(super) fn count(&mut self, frames: usize, lines: usize, answer: &str) {
        let (frames, lines) = (frames_kind(frames), lines_kind(lines));
        let [ill_formed, as_due] = &mut self.lent[frames][lines];
        match (answer, due(frames, lines)) {
            ("none", _) => {}
            ("refused 1", _) => *ill_formed += 1,
            (answer, Some(refused)) if answer == refused => *as_due += 1,
            (answer, None) if answer.starts_with("ok batch") => *as_due += 1,
            _ => self.undue += 1,
        }
        if let Some((accepted, stop)) = batch(answer) {
            self.count_stop(accepted, stop);
            self.most_lines = self.most_lines.max(fates(answer).count());
        }
    }

    fn count_stop(&mut self, accepted: usize, stop: u32) {
        match STOPS.iter().position(|refusal| *refusal == stop) {
            Some(place) => self.stops[place][usize::from(accepted > 0)] += 1,
            None => self.undue += u64::from(stop != 0),
        }
    }

    /// What was never reached, or reached although the request does not have it.
    pub(super) fn gaps(&self) -> Vec<String> {
        let mut gaps = Vec::new();
        for (frames, lines, counts) in self.cells() {
            for (answer, times) in ["1", "what is due"].into_iter().zip(counts) {
                if times == 0 {
                    gaps.push(format!(
                        "batch of {frames} frames, {lines} lines, answered {answer}: never"
                    ));
                }
            }
        }
        for (stop, counts) in STOPS.iter().zip(self.stops) {
            for (place, times) in ["first frame", "later frame"].into_iter().zip(counts) {
                if times == 0 {
                    gaps.push(format!("batch stopped by {stop} at its {place}: never"));
                }
            }
        }
        if self.undue > 0 {
            gaps.push(format!("batch answered what is not due: {}", self.undue));
        }
        if self.most_lines != MOST_LINES {
            gaps.push(format!("batch of most lines: {}", self.most_lines));
        }
        gaps
    }

    /// The counts by what was lent.
    fn cells(&self) -> impl Iterator<Item = (&'static str, &'static str, [u64; 2])> + '_ {
        FRAMES.iter().zip(&self.lent).flat_map(|(frames, row)| {
            let cells = LINES.iter().zip(row);
            cells.map(|(lines, counts)| (*frames, *lines, *counts))
        })
    }

    /// The counts as tables.
    pub(super) fn tables(&self) -> String {
        let mut text = String::from("\n| Batch, frames lent | Lines lent | Refused 1 | Else |\n");
        text.push_str("|---|---|---|---|\n");
        for (frames, lines, [ill_formed, as_due]) in self.cells() {
            let _ = writeln!(text, "| {frames} | {lines} | {ill_formed} | {as_due} |");
        }
        text.push_str("\n| Batch stopped by | At its first frame | Later |\n|---|---|---|\n");
        for (stop, [first, later]) in STOPS.iter().zip(self.stops) {
            let _ = writeln!(text, "| {stop} | {first} | {later} |");
        }
        let _ = writeln!(text, "\nMost lines of a batch: {}.", self.most_lines);
        text
    }
}
