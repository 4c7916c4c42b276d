//! The framing of boxes, the fields in a box's body, and refusal 12.

use crate::refusal::Refusal;
use crate::trace::{Framing, Parent, SegmentBranch, Trace};

/// The type of a box.
pub(crate) type Kind = [u8; 4];

/// The bytes of a size and a type.
pub(crate) const HEADER: u64 = 8;

/// The bytes of a size, a type and a 64-bit size.
pub(crate) const LARGE_HEADER: u64 = 16;

/// A size that announces a 64-bit size after the type.
pub(crate) const LARGE: u32 = 1;

/// The boxes that fill a parent, one after another.
pub(super) struct Boxes<'a> {
    rest: &'a [u8],
    parent: Parent,
}

impl<'a> Boxes<'a> {
    pub(super) fn of(body: &'a [u8], parent: Parent) -> Self {
        Self { rest: body, parent }
    }

    /// The next box's type and body, nothing at the parent's end, or refusal 12.
    pub(super) fn next<T: Trace>(
        &mut self,
        trace: &mut T,
    ) -> Result<Option<(Kind, &'a [u8])>, Refusal> {
        if self.rest.is_empty() {
            return Ok(None);
        }
        let read = take(&mut self.rest);
        trace.framed(self.parent, read.map_or_else(|bad| bad, |good| good.0));
        match read {
            Ok((_, kind, body)) => Ok(Some((kind, body))),
            Err(_) => Err(Refusal::Malformed),
        }
    }
}

/// Takes a box off the front of what is left of its parent: how its size is told, its type and its
/// body. Or how it is malformed: under 8 stray bytes, size 0, a size that does not hold the box's
/// own header, or one that overruns the parent.
fn take<'a>(rest: &mut &'a [u8]) -> Result<(Framing, Kind, &'a [u8]), Framing> {
    let mut fields = Fields(rest);
    let (Some(size), Some(kind)) = (fields.u32(), fields.bytes()) else {
        return Err(Framing::Stray);
    };
    let (told, body) = match size {
        0 => return Err(Framing::SizeZero),
        LARGE => {
            let size = fields.u64().ok_or(Framing::LargeSizeCut)?;
            let length = size.checked_sub(LARGE_HEADER);
            let length = length.ok_or(Framing::LargeSizeUnderHeader)?;
            let body = fields.part(length).ok_or(Framing::LargeOverruns)?;
            (Framing::LargeSize, body)
        }
        _ => {
            let length = u64::from(size).checked_sub(HEADER);
            let length = length.ok_or(Framing::SizeUnderHeader)?;
            let body = fields.part(length).ok_or(Framing::Overruns)?;
            (Framing::Size, body)
        }
    };
    *rest = fields.0;
    Ok((told, kind, body))
}

/// Fields read one after another; nothing where the bytes do not reach.
pub(crate) struct Fields<'a>(pub(crate) &'a [u8]);

impl<'a> Fields<'a> {
    pub(crate) fn bytes<const N: usize>(&mut self) -> Option<[u8; N]> {
        let (bytes, rest) = self.0.split_first_chunk()?;
        self.0 = rest;
        Some(*bytes)
    }

    pub(crate) fn u32(&mut self) -> Option<u32> {
        self.bytes().map(u32::from_be_bytes)
    }

    pub(crate) fn u64(&mut self) -> Option<u64> {
        self.bytes().map(u64::from_be_bytes)
    }

    /// A field that is there only if a flag says so.
    pub(super) fn optional(&mut self, there: bool) -> Option<Option<u32>> {
        match there {
            true => self.u32().map(Some),
            false => Some(None),
        }
    }

    /// So many bytes.
    pub(super) fn part(&mut self, length: u64) -> Option<&'a [u8]> {
        let (part, rest) = self.0.split_at_checked(usize::try_from(length).ok()?)?;
        self.0 = rest;
        Some(part)
    }

    /// A full box's version and flags.
    pub(super) fn version_and_flags(&mut self) -> Option<(u8, u32)> {
        let [version, flags @ ..] = self.bytes::<4>()?;
        let [high, middle, low] = flags;
        Some((version, u32::from_be_bytes([0, high, middle, low])))
    }
}

/// Refusal 12, telling what is malformed.
pub(super) fn malformed<T: Trace>(branch: SegmentBranch, trace: &mut T) -> Refusal {
    trace.segment(branch);
    Refusal::Malformed
}
