//! Where two implementations part, and the script that shows it.

use std::fmt;

/// Where two implementations part.
#[derive(Clone, Debug, PartialEq, Eq)]
pub struct Parting {
    /// The place of the call in the script, from 1.
    pub number: usize,
    /// The call itself.
    pub call: String,
    /// What the one says, or is.
    pub one: String,
    /// What the other says, or is.
    pub other: String,
}

impl fmt::Display for Parting {
    fn fmt(&self, f: &mut fmt::Formatter<'_>) -> fmt::Result {
        writeln!(f, "call {}: {}", self.number, self.call)?;
        writeln!(f, "one:   {}", self.one)?;
        write!(f, "other: {}", self.other)
    }
}

/// A difference between two implementations.
#[derive(Clone, Debug)]
pub struct Failure {
    /// The seed of the script that showed it.
    pub seed: u64,
    /// What is left of the script when every call and every frame that can go is gone.
    pub script: Vec<String>,
    /// Where they part in it.
    pub parting: Box<Parting>,
}

impl fmt::Display for Failure {
    fn fmt(&self, f: &mut fmt::Formatter<'_>) -> fmt::Result {
        writeln!(f, "seed {}, shortened:", self.seed)?;
        for line in self.script.iter().flat_map(|call| call.lines()) {
            writeln!(f, "    {line}")?;
        }
        write!(f, "{}", self.parting)
    }
}

impl Failure {
    /// One that a single call shows.
    pub(crate) fn of_call(seed: u64, parting: Box<Parting>) -> Self {
        Self {
            seed,
            script: vec![parting.call.clone()],
            parting,
        }
    }
}
