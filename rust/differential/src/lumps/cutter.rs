//! Writes the calls of a cutting: where a segment is cut, what comes between the lumps, and the end.

use std::ops::Range;

use second::{list_segment, SegmentTrack, LUMP_BYTES};

use super::cutting::{Beside, Cutting, Due, Lump, Step, Way, LARGE};
use super::top::Top;
use crate::rng::Rng;
use crate::segments::case::Case;

/// The refusal of a lump or a buffer by its length.
const LENT_SIZE: u32 = 13;

/// Places enough for the frames of most segments.
const ENOUGH: usize = 1_100;

/// No more lumps of one length than this.
const MOST: usize = 600;

/// Lengths of lumps, all of one length: those of headers, of packets, and the longest.
const LENGTHS: [usize; 15] = [
    2, 3, 5, 7, 8, 9, 15, 16, 17, 100, 188, 1_316, 4_096, 65_535, LUMP_BYTES,
];

/// Cuts a segment that is answered so as a whole.
pub(super) fn cut(
    rng: &mut Rng,
    case: &Case,
    top: &Top,
    whole: Result<usize, u32>,
    way: Way,
) -> Cutting {
    let length = case.bytes.len();
    let (mut places, percent) = match way {
        Way::Two(place) => (vec![place], 3),
        Way::Bytes => ((1..length).collect(), 1),
        Way::Anywhere => (anywhere(rng, length, top), 20),
    };
    places.push(length);
    let mut cutter = Cutter {
        rng,
        case,
        top,
        whole,
        cutting: Cutting {
            way,
            steps: Vec::new(),
            beside: Vec::new(),
            length,
        },
    };
    cutter.cut(&ranges(&places), percent);
    cutter.cutting
}

/// Some places of a segment, in order: a step apart, or near its boxes' headers, or anywhere.
fn anywhere(rng: &mut Rng, length: usize, top: &Top) -> Vec<usize> {
    if rng.percent(40) {
        let long = LENGTHS.iter().filter(|step| length / **step <= MOST);
        let steps: Vec<usize> = long.copied().collect();
        let step = rng.pick(&steps);
        return (step..length).step_by(step).collect();
    }
    let count = rng.between(0, 8);
    let mut places: Vec<usize> = (0..count).map(|_| place(rng, length, top)).collect();
    places.sort_unstable();
    places
}

/// A place near the header of a box, or any.
fn place(rng: &mut Rng, length: usize, top: &Top) -> usize {
    let place = match rng.percent(60) {
        true => rng.pick(&top.starts) as i64 + rng.between(-3, 18),
        false => rng.between(0, length as i64),
    };
    place.clamp(0, length as i64) as usize
}

/// The ranges up to each place from the one before it; in several parts where one is longer than a lump.
fn ranges(places: &[usize]) -> Vec<Range<usize>> {
    let mut ranges = Vec::new();
    let mut start = 0;
    for &end in places {
        while end - start > LUMP_BYTES {
            ranges.push(start..start + LUMP_BYTES);
            start += LUMP_BYTES;
        }
        ranges.push(start..end);
        start = end;
    }
    ranges
}

/// Writes the calls of one cutting.
struct Cutter<'c> {
    rng: &'c mut Rng,
    case: &'c Case,
    top: &'c Top,
    whole: Result<usize, u32>,
    cutting: Cutting,
}

impl Cutter<'_> {
    /// The lumps, with something beside them so many times in a hundred, up to a movie fragment that is
    /// too large or to the end.
    fn cut(&mut self, ranges: &[Range<usize>], percent: i64) {
        let (last, earlier) = ranges.split_last().expect("a range");
        let alone = self.rng.percent(40);
        for range in earlier.iter().chain(alone.then_some(last)) {
            if self.rng.percent(percent) {
                self.beside(range);
            }
            if self.is_large(range) {
                return self.large(range);
            }
            self.more(range.clone());
        }
        let end = match alone {
            true => last.end..last.end,
            false => last.clone(),
        };
        match self.is_large(&end) {
            true => self.large(&end),
            false => self.end(end),
        }
    }

    /// Whether a lump brings the last byte of a size that is too large.
    fn is_large(&self, range: &Range<usize>) -> bool {
        let large = self.top.large;
        large.is_some_and(|large| range.contains(&(large - 1)))
    }

    fn push(&mut self, range: Range<usize>, due: Due) -> &mut Step {
        let step = Step {
            of: self.asked(),
            lump: Lump::Part(range),
            last: false,
            places: self.rng.pick(&[0, 1, 8]),
            buffer: LUMP_BYTES + self.rng.pick(&[0, 0, 0, 0, 1, 64]),
            due,
        };
        self.cutting.steps.push(step);
        self.cutting.steps.last_mut().expect("the step")
    }

    /// What is asked, which does not matter before the end.
    fn asked(&mut self) -> SegmentTrack {
        match self.rng.percent(90) {
            true => self.case.of,
            false => SegmentTrack {
                id: self.rng.next() as u32,
                timescale: self.rng.pick(&[0, 1, u32::MAX]),
                ..self.case.of
            },
        }
    }

    /// A lump that is taken.
    fn more(&mut self, range: Range<usize>) {
        self.push(range, Due::Taken);
    }

    /// The end with a lump, as the segment so far is listed into so many places.
    fn told(&mut self, range: Range<usize>, places: usize) -> &mut Step {
        let of = self.case.of;
        let due = Due::Whole(range.end);
        let step = self.push(range, due);
        (step.of, step.last, step.places) = (of, true, places);
        step
    }

    /// A lump that brings the last byte of a size that is too large. It is refused, and not taken. So is
    /// that byte by itself, after those before it; and the segment ends in a header.
    fn large(&mut self, range: &Range<usize>) {
        let byte = self.top.large.expect("a size") - 1;
        for _ in 0..2 {
            let last = self.rng.percent(30);
            self.push(range.clone(), Due::Refused(LARGE)).last = last;
        }
        self.cutting.beside.push(Beside::WithoutTheByte);
        self.more(range.start..byte);
        let last = self.rng.percent(30);
        self.push(byte..byte + 1, Due::Refused(LARGE)).last = last;
        self.told(byte..byte, ENOUGH);
    }

    /// The last lump; and again, where it is refused.
    fn end(&mut self, range: Range<usize>) {
        let places = self.case.places;
        self.told(range.clone(), places);
        match self.whole {
            Err(12) => {
                self.cutting.beside.push(Beside::AgainMalformed);
                self.told(range, places);
            }
            Err(4) => {
                self.cutting.beside.push(Beside::AgainOther);
                let of = SegmentTrack {
                    timescale: 1_000,
                    duration: 40,
                    ..self.case.of
                };
                self.told(range, ENOUGH).of = of;
            }
            Err(10) => {
                self.cutting.beside.push(Beside::AgainLonger);
                if self.rng.percent(50) {
                    // Its bytes have not been taken, and may come without the end.
                    self.more(range.clone());
                    self.told(range.end..range.end, places);
                    self.told(range.end..range.end, ENOUGH);
                } else {
                    self.told(range, ENOUGH);
                }
            }
            _ => {}
        }
    }

    /// Something that is refused, or changes nothing, before a lump.
    fn beside(&mut self, next: &Range<usize>) {
        let beside = match self.rng.between(1, 6) {
            1 => Beside::LongLump,
            2 => Beside::ShortBuffer,
            3 => Beside::Nothing,
            4..=5 => Beside::EarlyEnd,
            _ => Beside::Damaged,
        };
        let (taken, last) = (next.start, self.rng.percent(30));
        let nothing = taken..taken;
        match beside {
            Beside::LongLump => {
                let length = self.rng.pick(&[LUMP_BYTES + 1, LUMP_BYTES + 1, 70_000]);
                let step = self.push(nothing, Due::Refused(LENT_SIZE));
                (step.lump, step.last) = (Lump::Long(length), last);
            }
            Beside::ShortBuffer => {
                let buffer = self.rng.pick(&[0, 1, LUMP_BYTES - 1, LUMP_BYTES - 1]);
                let step = self.push(next.clone(), Due::Refused(LENT_SIZE));
                (step.buffer, step.last) = (buffer, last);
            }
            Beside::Nothing => self.more(nothing),
            Beside::EarlyEnd => {
                let range = match self.rng.percent(50) && !self.is_large(next) {
                    true => next.clone(),
                    false => nothing,
                };
                let so_far = &self.case.bytes[..range.end];
                let listed = list_segment(self.case.of, so_far, &mut []).is_ok();
                if listed || range.end == self.cutting.length {
                    return; // it leaves a fresh reader, or is the end
                }
                self.told(range, 0);
            }
            _ => {
                self.push(nothing, Due::IllFormed);
            }
        }
        self.cutting.beside.push(beside);
    }
}
