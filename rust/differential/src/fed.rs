//! What is fed, as the request has it.

use script::digits;
use second::Feed;

/// What a feed gives.
#[derive(Clone, Debug)]
pub(crate) struct Fed {
    /// What is asked for.
    pub(crate) feed: Feed,
    /// How many bytes the initialization has.
    pub(crate) initialization: usize,
    /// How many the segment has.
    pub(crate) segment: usize,
    /// The bytes.
    pub(crate) bytes: Vec<u8>,
}

impl Fed {
    /// Of an initialization and a segment.
    pub(crate) fn of(feed: Feed, initialization: &[u8], segment: &[u8]) -> Self {
        let bytes = match feed {
            Feed::Initialization => initialization,
            Feed::Part { start, end } => segment.get(start..end).unwrap_or_default(),
        };
        Self {
            feed,
            initialization: initialization.len(),
            segment: segment.len(),
            bytes: bytes.to_vec(),
        }
    }

    /// What a session answers to it.
    pub(crate) fn answer(&self) -> String {
        format!("ok feed {}", digits(&self.bytes))
    }
}
