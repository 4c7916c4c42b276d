//! The calls by which a segment comes in lumps, and what is due to each.

use std::ops::Range;

use second::SegmentTrack;

use crate::segments::case::{asked, Case};
use crate::segments::outcome::Outcome;

/// The refusal of a movie fragment that is too large.
pub(crate) const LARGE: u32 = 14;

/// How a segment is cut.
#[derive(Clone, Copy, Debug, PartialEq, Eq)]
pub(crate) enum Way {
    /// Into two, at this place.
    Two(usize),
    /// Byte by byte.
    Bytes,
    /// Anywhere.
    Anywhere,
}

/// What stands between lumps that are taken, or after an end that is refused.
#[derive(Clone, Copy, Debug, PartialEq, Eq)]
pub(crate) enum Beside {
    /// A lump that is too long.
    LongLump,
    /// A buffer that is too short.
    ShortBuffer,
    /// A lump of no bytes.
    Nothing,
    /// An end that is told too early.
    EarlyEnd,
    /// Readers that no call hands out.
    Damaged,
    /// The end again, after refusal 12.
    AgainMalformed,
    /// The end again, after refusal 4, with another question.
    AgainOther,
    /// The end again, after refusal 10, with a longer list.
    AgainLonger,
    /// A lump with a movie fragment that is too large, without the byte that tells it.
    WithoutTheByte,
}

impl Beside {
    /// All of them, with their words.
    pub(crate) const ALL: [(Self, &'static str); 9] = [
        (Self::LongLump, "a lump that is too long"),
        (Self::ShortBuffer, "a buffer that is too short"),
        (Self::Nothing, "a lump of no bytes"),
        (Self::EarlyEnd, "an end told too early"),
        (Self::Damaged, "readers that no call hands out"),
        (Self::AgainMalformed, "the end again after 12"),
        (Self::AgainOther, "the end again after 4, asked otherwise"),
        (Self::AgainLonger, "the end again after 10, a longer list"),
        (
            Self::WithoutTheByte,
            "after 14, the lump without the byte that tells it",
        ),
    ];
}

/// A lump that is lent.
#[derive(Clone, Debug)]
pub(crate) enum Lump {
    /// A part of the segment.
    Part(Range<usize>),
    /// So many bytes that are none of it.
    Long(usize),
}

/// What is due to a call.
#[derive(Clone, Copy, Debug, PartialEq, Eq)]
pub(crate) enum Due {
    /// It is taken, and lists nothing.
    Taken,
    /// A refusal.
    Refused(u32),
    /// What so many bytes of the segment, to the end of its lump, are answered as a whole.
    Whole(usize),
    /// Refusal 1, with each reader that is damaged.
    IllFormed,
}

impl Due {
    /// The answer that is due, where that of the whole is known; none with damaged readers.
    pub(crate) fn result(self, whole: Option<&Outcome>) -> Option<Result<usize, u32>> {
        match self {
            Self::Taken => Some(Ok(0)),
            Self::Refused(refusal) => Some(Err(refusal)),
            Self::Whole(_) => whole.map(|whole| whole.result),
            Self::IllFormed => None,
        }
    }
}

/// A call.
#[derive(Clone, Debug)]
pub(crate) struct Step {
    pub(crate) of: SegmentTrack,
    pub(crate) lump: Lump,
    pub(crate) last: bool,
    pub(crate) places: usize,
    pub(crate) buffer: usize,
    pub(crate) due: Due,
}

impl Step {
    /// The bytes of its lump.
    pub(crate) fn bytes<'c>(&self, case: &'c Case) -> &'c [u8] {
        static LONG: [u8; 70_000] = [0; 70_000];
        match &self.lump {
            Lump::Part(range) => &case.bytes[range.clone()],
            Lump::Long(length) => &LONG[..*length],
        }
    }

    /// The call as a script has it; a damaged reader is beyond one.
    pub(crate) fn line(&self, case: &Case) -> String {
        let words = match (self.due, self.last) {
            (Due::IllFormed, _) => "# with damaged readers: lump more",
            (_, false) => "lump more",
            (_, true) => "lump last",
        };
        let asked = asked(self.of, self.bytes(case));
        let Self { places, buffer, .. } = self;
        format!("{words} {asked} places={places} buffer={buffer}")
    }
}

/// The calls of a segment that is cut one way.
#[derive(Clone, Debug)]
pub(crate) struct Cutting {
    pub(crate) way: Way,
    pub(crate) steps: Vec<Step>,
    /// What stands beside the lumps.
    pub(crate) beside: Vec<Beside>,
    /// The bytes of the segment.
    pub(crate) length: usize,
}

impl Cutting {
    /// How it ended at first, of what its calls were answered: refused 14, or as the whole.
    pub(crate) fn end(&self, results: &[Result<usize, u32>]) -> Option<Result<usize, u32>> {
        let steps = self.steps.iter().filter(|step| step.due != Due::IllFormed);
        let mut ends = steps.zip(results).filter(|(step, result)| {
            let whole = matches!(step.due, Due::Whole(end) if end == self.length);
            whole || **result == Err(LARGE)
        });
        ends.next().map(|(_, result)| *result)
    }
}
