//! Counting what the answers say: accepted and refused calls, causes, the doubles handed in, where
//! halves went, what became of batches, what the walks of reports, seeks, feeds and calls in the last
//! group met, and how cut segments ended.

mod batches;
mod cuttings;
mod feeds;
mod groups;
mod halves;
mod met;
mod seeks;
mod walks;

use std::collections::BTreeMap;
use std::fmt::Write;

use script::Call;
use second::{micros, State, SECONDS_LIMIT};

use crate::fed::Fed;
use crate::halves::{Half, HandedHalf, KeptHalf};
use crate::last_group::LastGroup;
use crate::lumps::cutting::Cutting;
use crate::sought::Sought;
use crate::told::fates;
use crate::walk::Walk;
use batches::Batches;
use cuttings::Cuttings;
use met::Met;

/// A call of the paper, with the refusals and causes that it can give.
struct Row {
    call: &'static str,
    refusals: &'static [usize],
    causes: &'static [usize],
}

impl Row {
    /// Whether the call takes a state. Lumps are refused 1 for their reader.
    fn takes_state(&self) -> bool {
        self.refusals.contains(&1) && self.call != LUMP
    }
}

const fn row(call: &'static str, refusals: &'static [usize], causes: &'static [usize]) -> Row {
    Row {
        call,
        refusals,
        causes,
    }
}

const ROWS: [Row; 17] = [
    row("create", &[11], &[]),
    row("append", &[1, 2, 3, 4, 9, 7, 8], &[1, 2, 3, 4, 5]),
    row("batch", &[1, 13, 2], &[1, 2, 3, 4, 5]),
    row("remove", &[1, 2, 5, 6, 9], &[5, 6]),
    row("abort", &[1, 9], &[]),
    row("mode", &[1], &[]),
    row("offset", &[1, 5], &[]),
    row("window-start", &[1, 5, 6], &[]),
    row("window-end", &[1, 5, 6], &[]),
    row("settings", &[1], &[]),
    row("ranges", &[1, 3, 10], &[]),
    row("common", &[1, 10], &[]),
    row("walked", &[1, 3], &[]),
    row("seek", &[1, 3, 15], &[]),
    row(SEGMENT, &[12, 4, 10], &[]),
    row(LUMP, &[1, 13, 14, 12, 4, 10], &[]),
    row("feed", &[], &[]),
];

const SEGMENT: &str = "segment";

const LUMP: &str = "lump";

/// One more than the highest refusal.
const REFUSALS: usize = 16;

/// One more than the highest cause.
const CAUSES: usize = 7;

type Test = fn(f64) -> bool;

/// Doubles that are easily taken wrongly, each with its test.
const DOUBLES: [(&str, Test); 8] = [
    ("NaN", f64::is_nan),
    ("plus infinity", |double| double == f64::INFINITY),
    ("minus infinity", |double| double == f64::NEG_INFINITY),
    ("minus zero", |double| {
        double == 0.0 && double.is_sign_negative()
    }),
    ("below zero, 0 microseconds", |double| {
        double < 0.0 && micros(double) == Some(0)
    }),
    ("exact half microsecond", |double| {
        Half::of(double).is_some()
    }),
    ("1,000,000 either way", |double| {
        double.abs() == SECONDS_LIMIT
    }),
    ("the next beyond 1,000,000", |double| {
        double.abs() == SECONDS_LIMIT.next_up()
    }),
];

/// What damage must have done to a segment: its answer whole, and damaged. Where a 12 takes the
/// place of a 4 or a 10, and a 4 that of a 10, it is by the order of the three.
const DAMAGE: [[Option<u32>; 2]; 5] = [
    [None, None],
    [None, Some(12)],
    [Some(4), Some(12)],
    [Some(10), Some(12)],
    [Some(10), Some(4)],
];

/// What was answered.
#[derive(Clone, Debug, Default)]
pub struct Answers {
    /// Scripts compared.
    pub scripts: u64,
    /// Answers compared.
    pub answers: u64,
    /// States compared.
    pub states: u64,
    /// Full accounts drawn up.
    pub accounts: u64,
    /// Pokes that an implementation declined.
    pub declined: u64,
    /// Segments compared besides those of scripts.
    pub segments: u64,
    /// Lists of rows compared besides the batches of scripts.
    pub rows: u64,
    /// Segments compared that were cut into lumps, each way of cutting one counted.
    pub cuttings: u64,
    accepted: [u64; ROWS.len()],
    refused: [[u64; REFUSALS]; ROWS.len()],
    causes: [[u64; CAUSES]; ROWS.len()],
    /// Calls refused 1 for a half that their state keeps as document 01 converted it.
    outdated: [u64; ROWS.len()],
    doubles: [u64; DOUBLES.len()],
    handed_halves: Met<HandedHalf>,
    kept_halves: Met<KeptHalf>,
    batches: Batches,
    walks: Met<Walk>,
    seeks: Met<Sought>,
    feeds: Met<Fed>,
    groups: Met<LastGroup>,
    cut: Cuttings,
    /// What a segment is answered whole, and what damaged: none for no refusal.
    damage: BTreeMap<[Option<u32>; 2], u64>,
}

impl Answers {
    /// Counts an answer.
    pub(crate) fn count(&mut self, call: &str, answer: &str) {
        self.answers += 1;
        self.count_words(call, answer);
        let name = call.split(' ').next().unwrap_or_default();
        let Some(row) = place(name) else {
            return;
        };
        match answer.split_once(' ') {
            Some(("refused", number)) => self.refuse(row, number.parse().ok()),
            _ if answer.starts_with("ok") => {
                self.accepted[row] += 1;
                for (_, cause) in fates(answer) {
                    if let Some(place) = self.causes[row].get_mut(cause as usize) {
                        *place += 1;
                    }
                }
            }
            _ => {}
        }
    }

    fn refuse(&mut self, row: usize, number: Option<usize>) {
        if let Some(place) = number.and_then(|number| self.refused[row].get_mut(number)) {
            *place += 1;
        }
    }

    /// Counts what a segment is answered that no script has.
    pub(crate) fn segment(&mut self, result: Result<usize, u32>) {
        self.segments += 1;
        self.result(SEGMENT, result);
    }

    fn result(&mut self, call: &str, result: Result<usize, u32>) {
        let row = place(call).unwrap_or_default();
        match result {
            Ok(_) => self.accepted[row] += 1,
            Err(number) => self.refuse(row, usize::try_from(number).ok()),
        }
    }

    /// Counts a segment that was cut, by what its calls were answered.
    pub(crate) fn cutting(&mut self, cutting: &Cutting, results: &[Result<usize, u32>]) {
        self.cuttings += 1;
        self.cut.count(cutting, results);
        for result in results {
            self.result(LUMP, *result);
        }
    }

    /// Counts lumps that were refused 1, by readers that no call hands out.
    pub(crate) fn damaged_readers(&mut self, times: u64) {
        let row = place(LUMP).unwrap_or_default();
        self.refused[row][1] += times;
    }

    /// Counts a walk that was answered.
    pub(crate) fn walk(&mut self, walk: &Walk) {
        self.walks.count(walk);
    }

    /// Counts a seek on a track of a well-formed state.
    pub(crate) fn seek(&mut self, sought: &Sought) {
        self.seeks.count(sought);
    }

    /// Counts what was fed.
    pub(crate) fn feed(&mut self, fed: &Fed) {
        self.feeds.count(fed);
    }

    /// Counts the halves that a call hands in, and those that the state keeps which it takes.
    pub(crate) fn halves(&mut self, call: &str, answer: &str, before: &State, after: &State) {
        for half in HandedHalf::all(call, answer, before, after) {
            self.handed_halves.count(&half);
        }
        let name = call.split(' ').next().unwrap_or_default();
        let Some(row) = place(name).filter(|row| ROWS[*row].takes_state()) else {
            return;
        };
        for half in KeptHalf::all(before, answer) {
            self.kept_halves.count(&half);
            self.outdated[row] += u64::from(half.is_outdated());
        }
    }

    /// Counts a call in the last group.
    pub(crate) fn last_group(&mut self, call: &LastGroup) {
        self.groups.count(call);
    }

    /// Counts what became of a segment by its damage.
    pub(crate) fn damage(&mut self, whole: Result<usize, u32>, torn: Result<usize, u32>) {
        *self.damage.entry([whole.err(), torn.err()]).or_default() += 1;
    }

    /// Counts what a call hands in.
    fn count_words(&mut self, call: &str, answer: &str) {
        match Call::read(call) {
            Some(Call::Remove(start, end, _)) => self.count_doubles(&[start, end]),
            Some(Call::Offset(time) | Call::WindowStart(time) | Call::WindowEnd(time)) => {
                self.count_doubles(&[time]);
            }
            Some(Call::Batch(frames, lines)) => self.batches.count(frames.len(), lines, answer),
            _ => {}
        }
    }

    fn count_doubles(&mut self, doubles: &[f64]) {
        for double in doubles {
            for (place, (_, is)) in self.doubles.iter_mut().zip(DOUBLES) {
                *place += u64::from(is(*double));
            }
        }
    }

    /// What was never reached, or reached although the paper does not have it.
    pub fn gaps(&self) -> Vec<String> {
        let mut gaps = Vec::new();
        for (index, row) in ROWS.iter().enumerate() {
            let call = row.call;
            let mut judge = |what: String, due: bool, times: u64| {
                if due != (times > 0) {
                    gaps.push(format!("{call} {what}: {times} times"));
                }
            };
            judge("accepted".to_string(), true, self.accepted[index]);
            for (number, &times) in self.refused[index].iter().enumerate() {
                judge(
                    format!("refused {number}"),
                    row.refusals.contains(&number),
                    times,
                );
            }
            for (cause, &times) in self.causes[index].iter().enumerate() {
                judge(format!("cause {cause}"), row.causes.contains(&cause), times);
            }
            judge(
                "refused 1 for a half".to_string(),
                row.takes_state(),
                self.outdated[index],
            );
        }
        let missed = DOUBLES
            .iter()
            .zip(self.doubles)
            .filter(|(_, times)| *times == 0);
        gaps.extend(missed.map(|((name, _), _)| format!("seconds, {name}: never")));
        gaps.extend(self.handed_halves.gaps());
        gaps.extend(self.kept_halves.gaps());
        gaps.extend(self.batches.gaps());
        gaps.extend(self.walks.gaps());
        gaps.extend(self.seeks.gaps());
        gaps.extend(self.feeds.gaps());
        gaps.extend(self.groups.gaps());
        gaps.extend(self.cut.gaps());
        let missed = DAMAGE
            .iter()
            .filter(|pair| !self.damage.contains_key(*pair));
        gaps.extend(missed.map(|[whole, torn]| {
            format!("segment {}, damaged {}: never", said(*whole), said(*torn))
        }));
        gaps
    }

    /// The counts as tables.
    pub fn tables(&self) -> String {
        let mut text = String::from(
            "| Call | Accepted | Refused, by number | 1 for a half by document 01 | Lines, by cause |\n\
             |---|---|---|---|---|\n",
        );
        for (index, row) in ROWS.iter().enumerate() {
            let list = |numbers: &[usize], counts: &[u64]| {
                let words = numbers.iter().map(|&n| format!("{n}: {}", counts[n]));
                words.collect::<Vec<_>>().join(", ")
            };
            let _ = writeln!(
                text,
                "| {} | {} | {} | {} | {} |",
                row.call,
                self.accepted[index],
                list(row.refusals, &self.refused[index]),
                self.outdated[index],
                list(row.causes, &self.causes[index])
            );
        }
        text.push_str("\n| Seconds handed in | Times |\n|---|---|\n");
        for ((name, _), times) in DOUBLES.iter().zip(self.doubles) {
            let _ = writeln!(text, "| {name} | {times} |");
        }
        text.push_str(&self.handed_halves.table());
        text.push_str(&self.kept_halves.table());
        text.push_str(&self.batches.tables());
        text.push_str(&self.walks.table());
        text.push_str(&self.seeks.table());
        text.push_str(&self.feeds.table());
        text.push_str(&self.groups.table());
        text.push_str(&self.cut.tables());
        text.push_str("\n| Segment, whole | Damaged | Times |\n|---|---|---|\n");
        for ([whole, torn], times) in &self.damage {
            let _ = writeln!(text, "| {} | {} | {times} |", said(*whole), said(*torn));
        }
        text
    }
}

/// The row of a call.
fn place(call: &str) -> Option<usize> {
    ROWS.iter().position(|row| row.call == call)
}

/// A refusal in words, or none.
fn said(refusal: Option<u32>) -> String {
    match refusal {
        Some(number) => format!("refused {number}"),
        None => "accepted".to_string(),
    }
}
