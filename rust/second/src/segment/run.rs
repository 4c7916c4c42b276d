//! A run of samples. Refusal 12, and no other.

use super::boxes::{malformed, Fields};
use crate::refusal::Refusal;
use crate::trace::{SegmentBranch, Trace};

/// A run of samples.
pub(super) struct Run<'a> {
    /// How many samples it announces.
    pub(super) count: u32,
    /// Whether composition offsets are signed: version 1.
    pub(super) signed: bool,
    /// Which numbers each sample has of its own.
    pub(super) columns: Columns,
    /// The flags of the first sample, whatever its own are.
    pub(super) first_flags: Option<u32>,
    /// The samples' own numbers.
    pub(super) numbers: &'a [[u8; 4]],
}

/// The numbers that each sample of a run has of its own, in their order.
#[derive(Clone, Copy)]
pub(super) struct Columns {
    pub(super) duration: bool,
    pub(super) size: bool,
    pub(super) flags: bool,
    pub(super) offset: bool,
}

impl Columns {
    /// How many numbers a sample has.
    pub(super) fn width(self) -> u32 {
        [self.duration, self.size, self.flags, self.offset]
            .map(u32::from)
            .iter()
            .sum()
    }
}

impl<'a> Run<'a> {
    /// Reads a run (trun) and makes sure of all its columns.
    pub(super) fn read<T: Trace>(body: &'a [u8], trace: &mut T) -> Result<Self, Refusal> {
        const DATA_OFFSET: u32 = 0x1;
        const FIRST_FLAGS: u32 = 0x4;
        const DURATIONS: u32 = 0x100;
        const SIZES: u32 = 0x200;
        const FLAGS: u32 = 0x400;
        const OFFSETS: u32 = 0x800;

        let mut fields = Fields(body);
        let Some(((version, flags), count)) = fields.version_and_flags().zip(fields.u32()) else {
            return Err(malformed(SegmentBranch::RunShort, trace));
        };
        if version > 1 {
            return Err(malformed(SegmentBranch::RunVersion, trace));
        }
        let has = |field| flags & field != 0;
        let Some((_, first_flags)) = fields
            .optional(has(DATA_OFFSET))
            .zip(fields.optional(has(FIRST_FLAGS)))
        else {
            return Err(malformed(SegmentBranch::RunShortOfOptional, trace));
        };
        let columns = Columns {
            duration: has(DURATIONS),
            size: has(SIZES),
            flags: has(FLAGS),
            offset: has(OFFSETS),
        };
        let length = u64::from(count) * u64::from(4 * columns.width());
        let Some(numbers) = fields.part(length) else {
            return Err(malformed(SegmentBranch::RunShortOfColumns, trace));
        };
        trace.segment(match fields.0 {
            [] => SegmentBranch::RunExact,
            _ => SegmentBranch::RunLonger,
        });
        Ok(Self {
            count,
            signed: version == 1,
            columns,
            first_flags,
            numbers: numbers.as_chunks().0,
        })
    }
}
