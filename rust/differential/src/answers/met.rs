//! Counting calls by what they met, and telling what none of them has.

use std::fmt::Write;
use std::marker::PhantomData;

/// What is asked of a call: a name, and its test.
pub(super) type Tests<C> = &'static [(&'static str, fn(&C) -> bool)];

/// A kind of call that is counted by what it met.
pub(super) trait Meets: Sized + 'static {
    /// What stands before a thing that was never met.
    const NAME: &'static str;
    /// What stands over the things in their table.
    const HEAD: &'static str;
    /// What must have been met.
    const TESTS: Tests<Self>;
}

/// How often calls met each thing.
#[derive(Clone, Debug)]
pub(super) struct Met<C> {
    times: Vec<u64>,
    of: PhantomData<C>,
}

impl<C: Meets> Default for Met<C> {
    fn default() -> Self {
        Self {
            times: vec![0; C::TESTS.len()],
            of: PhantomData,
        }
    }
}

impl<C: Meets> Met<C> {
    /// Counts a call.
    pub(super) fn count(&mut self, call: &C) {
        for (times, (_, met)) in self.times.iter_mut().zip(C::TESTS) {
            *times += u64::from(met(call));
        }
    }

    /// What was never met.
    pub(super) fn gaps(&self) -> impl Iterator<Item = String> + '_ {
        let met = C::TESTS.iter().zip(&self.times);
        let missed = met.filter(|(_, times)| **times == 0);
        missed.map(|((name, _), _)| format!("{}, {name}: never", C::NAME))
    }

    /// The counts as a table.
    pub(super) fn table(&self) -> String {
        let mut text = format!("\n| {} | Times |\n|---|---|\n", C::HEAD);
        for ((name, _), times) in C::TESTS.iter().zip(&self.times) {
            let _ = writeln!(text, "| {name} | {times} |");
        }
        text
    }
}
