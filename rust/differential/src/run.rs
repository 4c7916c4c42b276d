//! A run over many scripts, and the shortest script that still shows a difference.

use script::Subject;

use crate::answers::Answers;
use crate::compare::compare;
use crate::generate::script;
use crate::lumps::compare_cuttings;
use crate::parting::{Failure, Parting};
use crate::rows::compare_rows;
use crate::segments::compare_segments;
use crate::writer::{batch, batch_parts};

/// What to run.
#[derive(Clone, Copy, Debug)]
pub struct Plan {
    /// The first seed.
    pub seed: u64,
    /// How many scripts, one a seed.
    pub scripts: u64,
    /// How many well-made segments, one a seed, each with a few damaged ones.
    pub segments: u64,
    /// How many lists of rows that no script can hold, one a seed.
    pub rows: u64,
    /// How many cuttings of segments at least, several a seed.
    pub cuttings: u64,
}

/// Puts the scripts, the segments, the lists of rows and the cut segments of a plan to two
/// implementations.
pub fn run<A: Subject, B: Subject>(
    plan: Plan,
    one: &mut A,
    other: &mut B,
) -> Result<Answers, Failure> {
    let mut answers = Answers::default();
    for seed in plan.seed..plan.seed + plan.scripts {
        let calls = script(seed);
        if let Err(parting) = compare(one, other, &calls, &mut answers) {
            return Err(shorten(seed, calls, parting, one, other));
        }
    }
    let seeds = plan.seed..plan.seed + plan.segments;
    compare_segments(seeds, one, other, &mut answers)?;
    let seeds = plan.seed..plan.seed + plan.rows;
    compare_rows(seeds, one, other, &mut answers)?;
    compare_cuttings(plan.seed, plan.cuttings, one, other, &mut answers)?;
    Ok(answers)
}

/// Leaves calls out, and then frames of the batches that are left, as long as the two still part
/// somewhere.
fn shorten<A: Subject, B: Subject>(
    seed: u64,
    mut script: Vec<String>,
    first: Box<Parting>,
    one: &mut A,
    other: &mut B,
) -> Failure {
    let mut part = |script: &[String]| compare(one, other, script, &mut Answers::default()).err();
    script.truncate(first.number);
    let mut script = thin(script, |fewer| part(fewer).is_some());
    for place in 0..script.len() {
        let Some((words, frames)) = batch_parts(&script[place]) else {
            continue;
        };
        let with = |frames: &[String]| {
            let mut shorter = script.clone();
            shorter[place] = batch(frames, &words);
            shorter
        };
        let frames = thin(frames, |fewer| part(&with(fewer)).is_some());
        script = with(&frames);
    }
    let parting = part(&script).unwrap_or(first);
    Failure {
        seed,
        script,
        parting,
    }
}

/// Leaves parts out, many at a time and then fewer, as long as the rest will do.
fn thin<T: Clone>(mut parts: Vec<T>, mut will_do: impl FnMut(&[T]) -> bool) -> Vec<T> {
    let mut width = parts.len();
    while width > 0 {
        let mut start = 0;
        while start < parts.len() {
            let end = parts.len().min(start + width);
            let rest = [&parts[..start], &parts[end..]].concat();
            match will_do(&rest) {
                true => parts = rest,
                false => start = end,
            }
        }
        width /= 2;
    }
    parts
}
