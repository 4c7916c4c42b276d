//! Feeds that are wrong in one thing each.

use second::{feed, Feed};

/// What a feed does wrongly.
#[derive(Clone, Copy, Debug, PartialEq, Eq)]
pub enum WrongFeed {
    NothingAlways,
    InitializationAlways,
    SegmentAlways,
    PartOfTheInitialization,
    GivesTheRest,
    GivesAllWhenOverrun,
    NothingOfTheInitialization,
    EndIncluded,
    EndIsALength,
    SwapsTheEnds,
    UpToTheEndWithoutAStart,
    StopsBeforeTheLastByte,
    CutsThePlace,
    Copies,
}

impl WrongFeed {
    pub const ALL: [Self; 14] = [
        Self::NothingAlways,
        Self::InitializationAlways,
        Self::SegmentAlways,
        Self::PartOfTheInitialization,
        Self::GivesTheRest,
        Self::GivesAllWhenOverrun,
        Self::NothingOfTheInitialization,
        Self::EndIncluded,
        Self::EndIsALength,
        Self::SwapsTheEnds,
        Self::UpToTheEndWithoutAStart,
        Self::StopsBeforeTheLastByte,
        Self::CutsThePlace,
        Self::Copies,
    ];

    /// The wrong answer.
    pub fn feed<'a>(self, initialization: &'a [u8], segment: &'a [u8], of: Feed) -> &'a [u8] {
        let right = feed(initialization, segment, of);
        match self {
            Self::NothingAlways => &segment[..0],
            Self::InitializationAlways => initialization,
            Self::SegmentAlways => segment,
            // Leaked, as nothing else outlives the call.
            Self::Copies => right.to_vec().leak(),
            _ => match of {
                Feed::Initialization => self.initialization(initialization),
                Feed::Part { start, end } => self
                    .part(initialization, segment, start, end)
                    .unwrap_or(right),
            },
        }
    }

    fn initialization(self, initialization: &[u8]) -> &[u8] {
        match self {
            Self::PartOfTheInitialization => &initialization[initialization.len() / 2..],
            _ => initialization,
        }
    }

    /// What is wrong about a part; nothing where that is right.
    fn part<'a>(
        self,
        initialization: &'a [u8],
        segment: &'a [u8],
        start: usize,
        end: usize,
    ) -> Option<&'a [u8]> {
        let last = segment.len();
        match self {
            Self::GivesTheRest => segment.get(start..end.min(last)),
            Self::GivesAllWhenOverrun if end > last => Some(segment),
            Self::NothingOfTheInitialization if end > last => Some(&initialization[..0]),
            Self::EndIncluded => segment.get(start..end.checked_add(1)?),
            Self::EndIsALength => segment.get(start..start.checked_add(end)?),
            Self::SwapsTheEnds => segment.get(start.min(end)..start.max(end)),
            Self::UpToTheEndWithoutAStart if start > end => segment.get(..end),
            Self::StopsBeforeTheLastByte if end == last => segment.get(start..end.checked_sub(1)?),
            Self::CutsThePlace => segment.get(start as u32 as usize..end as u32 as usize),
            _ => None,
        }
    }
}
