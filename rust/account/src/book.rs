//! The book of a buffer: the frames that were offered to it and accepted, and the fate lines that its
//! calls handed out, each with its line in the script.

use std::collections::BTreeMap;

use galumper::{Cause, Fate};
use second::Offered;

/// A frame that was accepted, stored or dropped.
#[derive(Clone, Copy, Debug, PartialEq, Eq)]
pub struct Offering {
    /// The number that the buffer gave it.
    pub number: u32,
    /// The line that offered it: of an append, or of a batch's frame. No other frame has this line.
    pub line: usize,
    /// The frame as offered.
    pub frame: Offered,
    /// Its presentation time in the buffer, with the timestamp offset added.
    pub placed: i64,
}

/// A fate line, with the line of the call that handed it out.
#[derive(Clone, Copy, Debug, PartialEq, Eq)]
pub struct FateLine {
    /// The call's line.
    pub line: usize,
    /// The frame's number.
    pub number: u32,
    /// Why the frame is gone.
    pub cause: Cause,
}

/// The book of a buffer.
#[derive(Clone, Debug, Default, PartialEq, Eq)]
pub struct Book {
    /// The line of the creation.
    pub created: usize,
    /// The line of the restore that last brought the buffer to where it is.
    pub restored: Option<usize>,
    /// The line of the first poke.
    pub poked: Option<usize>,
    /// The frames, in the order in which they were offered.
    pub offered: Vec<Offering>,
    /// The fate lines, in the order in which they were handed out.
    pub fates: Vec<FateLine>,
}

impl Book {
    /// The book of a buffer created at a line.
    pub fn created(line: usize) -> Self {
        Self {
            created: line,
            ..Self::default()
        }
    }

    /// Books the fate lines of the call at a line.
    pub fn lose(&mut self, line: usize, fates: &[Fate]) {
        let lines = fates.iter().map(|fate| FateLine {
            line,
            number: fate.number,
            cause: fate.cause,
        });
        self.fates.extend(lines);
    }

    /// The frames by number.
    pub fn offered_by_number(&self) -> BTreeMap<u32, Offering> {
        let offered = self.offered.iter();
        offered
            .map(|offering| (offering.number, *offering))
            .collect()
    }

    /// The fate lines by the number of their frame.
    pub fn fates_by_number(&self) -> BTreeMap<u32, FateLine> {
        let fates = self.fates.iter();
        fates.map(|fate| (fate.number, *fate)).collect()
    }
}
