//! The balance of demand 3: on each track offered equals stored plus dropped plus removed, and each
//! number is found exactly once, on one stored frame or one fate line. A stored frame stands on the
//! track on which it was offered, and where it was placed.

use std::collections::BTreeMap;

use galumper::Cause;

use crate::book::{Book, Offering};

/// A frame that is stored in a buffer's state.
#[derive(Clone, Copy, Debug, PartialEq, Eq)]
pub struct Stored {
    /// Its track.
    pub track: u32,
    /// Its number.
    pub number: u32,
    /// Its presentation time.
    pub pts: i64,
}

/// The counts of a track.
#[derive(Clone, Copy, Debug, Default, PartialEq, Eq)]
pub struct Counts {
    /// Frames that were accepted.
    pub offered: usize,
    /// Frames in the state.
    pub stored: usize,
    /// Fate lines with causes 1 to 3.
    pub dropped: usize,
    /// Fate lines with causes 4 to 6.
    pub removed: usize,
}

impl Counts {
    /// Whether every frame offered is in one of the other counts.
    pub fn balances(&self) -> bool {
        self.offered == self.stored + self.dropped + self.removed
    }
}

/// What is wrong with a number.
#[derive(Clone, Copy, Debug, PartialEq, Eq)]
pub enum Fault {
    /// The frame offered at a place, from 1, has another number.
    Misnumbered(usize, u32),
    /// A number that was offered is found so many times and not once.
    Found(u32, usize),
    /// A number is found that was not offered.
    NotOffered(u32),
    /// A number is stored on a track, and was offered on another.
    OtherTrack(u32, u32),
    /// A number is stored at a presentation time, and was placed at another.
    OtherTime(u32, i64),
}

/// The balance of a buffer.
#[derive(Clone, Debug, Default, PartialEq, Eq)]
pub struct Balance {
    /// The counts of each track.
    pub tracks: BTreeMap<u32, Counts>,
    /// What is wrong with the numbers.
    pub faults: Vec<Fault>,
}

impl Balance {
    /// Draws up the balance of a book and the frames that the state stores, for a buffer of so many
    /// tracks.
    pub fn of(book: &Book, stored: &[Stored], tracks: u32) -> Self {
        Self {
            tracks: counts(book, stored, tracks),
            faults: [faults(book, stored), misplaced(book, stored)].concat(),
        }
    }

    /// Whether it holds.
    pub fn holds(&self) -> bool {
        self.faults.is_empty() && self.tracks.values().all(Counts::balances)
    }
}

/// The counts of each track. A fate line counts for the track on which its frame was offered.
fn counts(book: &Book, stored: &[Stored], tracks: u32) -> BTreeMap<u32, Counts> {
    let mut counts: BTreeMap<u32, Counts> = (1..=tracks)
        .map(|track| (track, Counts::default()))
        .collect();
    let offered = book.offered_by_number();
    for offering in &book.offered {
        counts.entry(offering.frame.track).or_default().offered += 1;
    }
    for frame in stored {
        counts.entry(frame.track).or_default().stored += 1;
    }
    for fate in &book.fates {
        let Some(offering) = offered.get(&fate.number) else {
            continue; // told as a number that was not offered
        };
        let counts = counts.entry(offering.frame.track).or_default();
        match fate.cause {
            Cause::BEFORE_WINDOW | Cause::AFTER_WINDOW | Cause::NEEDS_POINT => counts.dropped += 1,
            _ => counts.removed += 1,
        }
    }
    counts
}

/// What is wrong with the numbers, by rising number: the n-th frame offered is frame n, and each is
/// found once.
fn faults(book: &Book, stored: &[Stored]) -> Vec<Fault> {
    let mut found: BTreeMap<u32, usize> = BTreeMap::new();
    let on_frames = stored.iter().map(|frame| frame.number);
    for number in on_frames.chain(book.fates.iter().map(|fate| fate.number)) {
        *found.entry(number).or_default() += 1;
    }
    let mut faults = Vec::new();
    for (place, offering) in (1..).zip(&book.offered) {
        let number = offering.number;
        if usize::try_from(number) != Ok(place) {
            faults.push(Fault::Misnumbered(place, number));
        }
        match found.remove(&number).unwrap_or(0) {
            1 => {}
            times => faults.push(Fault::Found(number, times)),
        }
    }
    faults.extend(found.into_keys().map(Fault::NotOffered));
    faults
}

/// The frames that are stored elsewhere than they were offered and placed.
fn misplaced(book: &Book, stored: &[Stored]) -> Vec<Fault> {
    let offered = book.offered_by_number();
    let fault = |frame: &Stored| moved(offered.get(&frame.number)?, frame);
    stored.iter().filter_map(fault).collect()
}

fn moved(offering: &Offering, frame: &Stored) -> Option<Fault> {
    if offering.frame.track != frame.track {
        return Some(Fault::OtherTrack(frame.number, frame.track));
    }
    (offering.placed != frame.pts).then_some(Fault::OtherTime(frame.number, frame.pts))
}

#[cfg(test)]
mod tests {
    use galumper::Fate;
    use second::Offered;

    use super::*;

    /// A book of frames on these tracks, numbered from 1, and fate lines.
    fn book(tracks: &[u32], fates: &[(u32, u32)]) -> Book {
        let mut book = Book::created(1);
        let frame = |track| Offered {
            track,
            pts: 0,
            dts: 0,
            duration: 1,
            flagged: true,
        };
        book.offered = (1..)
            .zip(tracks)
            .map(|(number, track)| Offering {
                number,
                line: number as usize + 1,
                frame: frame(*track),
                placed: 0,
            })
            .collect();
        let fate = |(number, cause): &(u32, u32)| Fate {
            number: *number,
            cause: Cause(*cause),
        };
        book.lose(9, &fates.iter().map(fate).collect::<Vec<_>>());
        book
    }

    fn stored(frames: &[(u32, u32)]) -> Vec<Stored> {
        let frames = frames.iter();
        frames
            .map(|&(track, number)| Stored {
                track,
                number,
                pts: 0,
            })
            .collect()
    }

    #[test]
    fn every_number_once() {
        let book = book(&[1, 2, 1, 1], &[(1, 4), (4, 3)]);
        let balance = Balance::of(&book, &stored(&[(1, 3), (2, 2)]), 2);
        assert!(balance.holds());
        let one = Counts {
            offered: 3,
            stored: 1,
            dropped: 1,
            removed: 1,
        };
        assert_eq!(balance.tracks[&1], one);
    }

    #[test]
    fn a_number_that_is_lost() {
        let balance = Balance::of(&book(&[1, 1], &[]), &stored(&[(1, 2)]), 1);
        assert!(!balance.holds());
        assert_eq!(balance.faults, [Fault::Found(1, 0)]);
        assert!(!balance.tracks[&1].balances());
    }

    #[test]
    fn a_number_found_twice() {
        let balance = Balance::of(&book(&[1, 1], &[(1, 6)]), &stored(&[(1, 1), (1, 2)]), 1);
        assert_eq!(balance.faults, [Fault::Found(1, 2)]);
    }

    #[test]
    fn a_number_that_nobody_offered() {
        let balance = Balance::of(&book(&[1], &[(7, 4)]), &stored(&[(1, 1)]), 1);
        assert_eq!(balance.faults, [Fault::NotOffered(7)]);
        assert!(!balance.holds());
    }

    #[test]
    fn a_frame_on_another_track() {
        let balance = Balance::of(&book(&[1, 2], &[]), &stored(&[(1, 1), (1, 2)]), 2);
        assert_eq!(balance.faults, [Fault::OtherTrack(2, 1)]);
        assert!(!balance.holds());
    }

    #[test]
    fn two_frames_in_each_other_s_place() {
        let balance = Balance::of(&book(&[1, 2], &[]), &stored(&[(1, 2), (2, 1)]), 2);
        assert!(balance.tracks.values().all(Counts::balances));
        let wanted = [Fault::OtherTrack(2, 1), Fault::OtherTrack(1, 2)];
        assert_eq!(balance.faults, wanted);
    }

    #[test]
    fn a_frame_at_another_time() {
        let mut frames = stored(&[(1, 1), (1, 2)]);
        frames[1].pts = 7;
        let balance = Balance::of(&book(&[1, 1], &[]), &frames, 1);
        assert_eq!(balance.faults, [Fault::OtherTime(2, 7)]);
        assert!(!balance.holds());
    }

    #[test]
    fn a_number_out_of_turn() {
        let mut book = book(&[1, 1], &[]);
        book.offered[1].number = 5;
        let balance = Balance::of(&book, &stored(&[(1, 1), (1, 5)]), 1);
        assert_eq!(balance.faults, [Fault::Misnumbered(2, 5)]);
    }
}
