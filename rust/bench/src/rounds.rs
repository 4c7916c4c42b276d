//! The rounds of both, and the medians of their times.

use std::fmt;

use crate::measure::{median, Case, Measure};

const ROUNDS: usize = 15;

/// The median times of a case.
#[derive(Clone, Copy)]
pub struct Times {
    /// Of the proved library.
    pub proved: f64,
    /// Of the second implementation.
    pub second: f64,
}

impl Times {
    /// How many times as long the proved library takes.
    pub fn ratio(&self) -> f64 {
        self.proved / self.second
    }
}

impl fmt::Display for Times {
    fn fmt(&self, f: &mut fmt::Formatter<'_>) -> fmt::Result {
        let Self { proved, second } = self;
        write!(f, "{proved:.2} / {second:.2} = {:.2}", self.ratio())
    }
}

/// The ratios of some times: the middle one and the greatest.
pub fn ratios(times: &[Times]) -> String {
    let ratios: Vec<f64> = times.iter().map(Times::ratio).collect();
    let greatest = ratios.iter().copied().fold(0.0, f64::max);
    let middle = median(ratios);
    format!("{middle:.2} in the median, {greatest:.2} at most")
}

/// For each case the medians of its rounds. A round goes through all cases, so that a busy moment
/// falls on a few rounds of a case at most.
pub fn measured(cases: &[Case], proved: &mut dyn Measure, second: &mut dyn Measure) -> Vec<Times> {
    let mut rounds = vec![(Vec::new(), Vec::new()); cases.len()];
    for _ in 0..ROUNDS {
        for (&case, (ones, others)) in cases.iter().zip(&mut rounds) {
            ones.push(proved.round(case));
            others.push(second.round(case));
        }
    }
    let medians = |(ones, others)| Times {
        proved: median(ones),
        second: median(others),
    };
    rounds.into_iter().map(medians).collect()
}
