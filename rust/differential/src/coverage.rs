//! Counting the branches of the steps, of batches, of seeks, of what to feed, of the reader of segments
//! and of that of their lumps, and the clauses of the well-formed test.

use std::fmt::Write;

use second::{
    BatchBranch, Branch, Fault, FeedBranch, Framing, LumpBranch, Parent, SeekBranch, SegmentBranch,
    Trace,
};

/// Where in a call a branch is taken.
#[derive(Clone, Copy, Debug, PartialEq, Eq)]
enum Part {
    FirstPass,
    SecondPass,
    BatchFirstPass,
    BatchSecondPass,
    Removal,
}

use Part::{BatchFirstPass, BatchSecondPass, FirstPass, Removal, SecondPass};

const PARTS: [Part; 5] = [
    FirstPass,
    SecondPass,
    BatchFirstPass,
    BatchSecondPass,
    Removal,
];

/// The pass of an append that a break begins; none after another part.
fn after_break(part: Part) -> Option<Part> {
    match part {
        FirstPass => Some(SecondPass),
        BatchFirstPass => Some(BatchSecondPass),
        SecondPass | BatchSecondPass | Removal => None,
    }
}

/// The parts in which a branch can be taken at all.
fn parts(branch: Branch) -> &'static [Part] {
    use Branch::*;
    match branch {
        AppendBegins | Step1Unset | PresentationLeaves | Step3Equal | Step3Within | Step3Twice
        | Step3Below | Step3Beyond | Step6Clear | Step7Below | Step7At | Step7Above | Step7Gap
        | Step9HighestRaised | Step9HighestKept | Step9GroupKept => &[FirstPass, BatchFirstPass],
        Step1Segments | Step1Moves | Step1Same | OffsetLeaves | DecodeLeaves | EndLeaves
        | Step3Unset | Step4Drop | Step5Drop | Step6Drop | Step6Off | Step7Unset | Full
        | RoomFreed | Step7Takes | Step7None | Step9Last | Step9Before | Step9Equal
        | Step9LastGroup | Step9HighestSet | Step9GroupRaised => {
            &[FirstPass, SecondPass, BatchFirstPass, BatchSecondPass]
        }
        BreakInSegments | BreakInSequence => &[FirstPass, BatchFirstPass, Removal],
        GroupsGone => &[SecondPass, BatchSecondPass],
        Step8Takes | Step8Stops | Step8PastPoint | Step8NotCarried => &PARTS,
        RemoveBegins | RemoveGroupsGone | RemoveUnbounded | RemoveEdge | RemoveNoEdge
        | RemoveNone | RemoveLosesTaken | RemoveLosesFollowing => &[Removal],
    }
}

/// A trace that counts.
#[derive(Clone, Debug)]
pub struct Coverage {
    part: Part,
    in_batch: bool,
    /// Whether step 1 ran in this pass.
    started: bool,
    branches: [[u64; PARTS.len()]; Branch::ALL.len()],
    faults: [u64; Fault::ALL.len()],
    /// Breaks in the pass in which step 1 has just set the offset, outside a batch and in one.
    breaks_after_start: [u64; 2],
    batches: [u64; BatchBranch::ALL.len()],
    seeks: [u64; SeekBranch::ALL.len()],
    feeds: [u64; FeedBranch::ALL.len()],
    framings: [[u64; Parent::ALL.len()]; Framing::ALL.len()],
    segments: [u64; SegmentBranch::ALL.len()],
    lumps: [u64; LumpBranch::ALL.len()],
}

impl Default for Coverage {
    fn default() -> Self {
        Self {
            part: FirstPass,
            in_batch: false,
            started: false,
            branches: [[0; PARTS.len()]; Branch::ALL.len()],
            faults: [0; Fault::ALL.len()],
            breaks_after_start: [0; 2],
            batches: [0; BatchBranch::ALL.len()],
            seeks: [0; SeekBranch::ALL.len()],
            feeds: [0; FeedBranch::ALL.len()],
            framings: [[0; Parent::ALL.len()]; Framing::ALL.len()],
            segments: [0; SegmentBranch::ALL.len()],
            lumps: [0; LumpBranch::ALL.len()],
        }
    }
}

impl Trace for Coverage {
    fn reach(&mut self, branch: Branch) {
        match branch {
            Branch::AppendBegins => {
                self.part = match self.in_batch {
                    true => BatchFirstPass,
                    false => FirstPass,
                };
                self.started = false;
            }
            Branch::RemoveBegins => self.part = Removal,
            Branch::Step1Moves | Branch::Step1Same => self.started = true,
            _ => {}
        }
        self.branches[branch as usize][self.part as usize] += 1;
        let breaks = matches!(branch, Branch::BreakInSegments | Branch::BreakInSequence);
        if let Some(pass) = after_break(self.part).filter(|_| breaks) {
            self.breaks_after_start[usize::from(self.in_batch)] += u64::from(self.started);
            self.part = pass;
        }
    }

    fn batch(&mut self, branch: BatchBranch) {
        match branch {
            BatchBranch::Begins => self.in_batch = true,
            BatchBranch::Whole | BatchBranch::Stopped => self.in_batch = false,
            _ => {}
        }
        self.batches[branch as usize] += 1;
    }

    fn seek(&mut self, branch: SeekBranch) {
        self.seeks[branch as usize] += 1;
    }

    fn feed(&mut self, branch: FeedBranch) {
        self.feeds[branch as usize] += 1;
    }

    fn fault(&mut self, fault: Fault) {
        self.faults[fault as usize] += 1;
    }

    fn framed(&mut self, parent: Parent, framing: Framing) {
        self.framings[framing as usize][parent as usize] += 1;
    }

    fn segment(&mut self, branch: SegmentBranch) {
        self.segments[branch as usize] += 1;
    }

    fn lump(&mut self, branch: LumpBranch) {
        self.lumps[branch as usize] += 1;
    }
}

impl Coverage {
    /// What was never reached, or reached although it cannot be.
    pub fn gaps(&self) -> Vec<String> {
        let mut gaps = Vec::new();
        for (&branch, counts) in Branch::ALL.iter().zip(&self.branches) {
            for (part, &times) in PARTS.into_iter().zip(counts) {
                if parts(branch).contains(&part) != (times > 0) {
                    gaps.push(format!("{}, {part:?}: {times} times", branch.text()));
                }
            }
        }
        if self.breaks_after_start.contains(&0) {
            gaps.push("step 3 break straight after step 1: never".to_string());
        }
        for kind in self.kinds() {
            gaps.extend(kind.missed());
        }
        for (framing, counts) in Framing::ALL.iter().zip(&self.framings) {
            let missed = Parent::ALL
                .iter()
                .zip(counts)
                .filter(|(_, times)| **times == 0);
            gaps.extend(
                missed.map(|(parent, _)| format!("{} in {}: never", framing.text(), parent.text())),
            );
        }
        gaps
    }

    /// The counts as tables; a dash where a branch cannot be taken.
    pub fn tables(&self) -> String {
        let mut text = String::from(
            "| Branch | First pass | Second pass | First pass in a batch | Second pass in a batch \
             | Removal |\n|---|---|---|---|---|---|\n",
        );
        for (&branch, counts) in Branch::ALL.iter().zip(&self.branches) {
            let cells = PARTS.into_iter().zip(counts).map(|(part, times)| {
                match parts(branch).contains(&part) {
                    true => times.to_string(),
                    false => "-".to_string(),
                }
            });
            let cells: Vec<String> = cells.collect();
            let _ = writeln!(text, "| {} | {} |", branch.text(), cells.join(" | "));
        }
        let [single, in_batch] = self.breaks_after_start;
        let _ = writeln!(
            text,
            "| step 3 break straight after step 1 | {single} | - | {in_batch} | - | - |"
        );
        for kind in self.kinds() {
            text.push_str(&kind.table());
        }
        text.push_str("\n| Box, by its parent");
        for parent in Parent::ALL {
            let _ = write!(text, " | {}", parent.text());
        }
        text.push_str(" |\n|---|---|---|---|\n");
        for (framing, counts) in Framing::ALL.iter().zip(&self.framings) {
            let cells = counts.map(|times| times.to_string()).join(" | ");
            let _ = writeln!(text, "| {} | {cells} |", framing.text());
        }
        text
    }

    /// The counts that have one number a case.
    fn kinds(&self) -> [Kind<'_>; 6] {
        [
            Kind {
                name: "batch, ",
                head: "Branch of a batch",
                cases: BatchBranch::ALL
                    .iter()
                    .map(|branch| branch.text())
                    .collect(),
                times: &self.batches,
            },
            Kind {
                name: "seek, ",
                head: "Branch of a seek",
                cases: SeekBranch::ALL.iter().map(|branch| branch.text()).collect(),
                times: &self.seeks,
            },
            Kind {
                name: "feed, ",
                head: "Branch of what to feed",
                cases: FeedBranch::ALL.iter().map(|branch| branch.text()).collect(),
                times: &self.feeds,
            },
            Kind {
                name: "",
                head: "Fault of a state",
                cases: Fault::ALL.iter().map(|fault| fault.text()).collect(),
                times: &self.faults,
            },
            Kind {
                name: "segment, ",
                head: "Branch of the reader of segments",
                cases: SegmentBranch::ALL
                    .iter()
                    .map(|branch| branch.text())
                    .collect(),
                times: &self.segments,
            },
            Kind {
                name: "lump, ",
                head: "Branch of the reader of lumps",
                cases: LumpBranch::ALL.iter().map(|branch| branch.text()).collect(),
                times: &self.lumps,
            },
        ]
    }
}

/// Counts that have one number a case.
struct Kind<'a> {
    /// What stands before a case that was missed.
    name: &'static str,
    /// What stands over the cases in their table.
    head: &'static str,
    /// The cases, in words.
    cases: Vec<&'static str>,
    times: &'a [u64],
}

impl Kind<'_> {
    /// The cases that were never reached.
    fn missed(&self) -> impl Iterator<Item = String> + '_ {
        let cases = self.cases.iter().zip(self.times);
        let missed = cases.filter(|(_, times)| **times == 0);
        missed.map(|(case, _)| format!("{}{case}: never", self.name))
    }

    fn table(&self) -> String {
        let mut text = format!("\n| {} | Times |\n|---|---|\n", self.head);
        for (case, times) in self.cases.iter().zip(self.times) {
            let _ = writeln!(text, "| {case} | {times} |");
        }
        text
    }
}
