//! A buffer with its book, and what the two say together.

use std::collections::BTreeSet;

use galumper::{Buffer, Kind, Range, Refusal, PLACES, RANGES, TRACKS};

use crate::balance::{Balance, Stored};
use crate::book::{Book, FateLine, Offering};

/// What became of a frame.
#[derive(Clone, Copy, Debug, PartialEq, Eq)]
pub enum Outcome {
    /// It is stored.
    Held,
    /// A call told it on a fate line.
    Lost(FateLine),
    /// It is neither stored nor told: a poke can do that.
    Missing,
}

/// What a track holds.
#[derive(Clone, Debug)]
pub struct Holding {
    /// The track, from 1.
    pub track: u32,
    /// Its kind.
    pub kind: Kind,
    /// Its ranges, or why they are not reported.
    pub ranges: Result<Vec<Range>, Refusal>,
}

/// A buffer with its book.
#[derive(Clone, Debug)]
pub struct Kept {
    /// The buffer.
    pub buffer: Box<Buffer>,
    /// Its book.
    pub book: Book,
}

impl Kept {
    /// The frames in the state. A count that a poke made too high is cut to the places there are.
    fn stored(&self) -> Vec<Stored> {
        let count = self.buffer.head.nframes.min(PLACES);
        let rows = self.buffer.tags.iter().zip(&self.buffer.times);
        rows.take(count)
            .map(|(&[track, _, _, number, _], &[pts, _])| Stored { track, number, pts })
            .collect()
    }

    /// How many tracks the buffer has, cut to the places there are.
    fn tracks(&self) -> usize {
        self.buffer.head.ntracks.min(TRACKS)
    }

    /// The balance of the book and the state.
    pub fn balance(&self) -> Balance {
        Balance::of(&self.book, &self.stored(), self.tracks() as u32)
    }

    /// What became of each frame of the book.
    pub fn outcomes(&self) -> Vec<(Offering, Outcome)> {
        let fates = self.book.fates_by_number();
        let stored: BTreeSet<u32> = self.stored().iter().map(|frame| frame.number).collect();
        let outcome = |number: u32| match fates.get(&number) {
            Some(fate) => Outcome::Lost(*fate),
            None if stored.contains(&number) => Outcome::Held,
            None => Outcome::Missing,
        };
        let offered = self.book.offered.iter();
        offered
            .map(|offering| (*offering, outcome(offering.number)))
            .collect()
    }

    /// What each track holds, as the buffer reports it.
    pub fn holdings(&self) -> Vec<Holding> {
        let tracks = self.buffer.head.tracks[..self.tracks()].iter();
        (1..)
            .zip(tracks)
            .map(|(track, place)| Holding {
                track,
                kind: place.kind,
                ranges: self.ranges(track),
            })
            .collect()
    }

    fn ranges(&self, track: u32) -> Result<Vec<Range>, Refusal> {
        let mut ranges = vec![Range::default(); RANGES];
        let count = self.buffer.track_ranges(track, &mut ranges)?;
        ranges.truncate(count);
        Ok(ranges)
    }
}
