//! A lump, walked box by box, and refusal 14. Nothing is written on the way.

use super::header::{CutHeader, Header};
use super::reader::{LumpFragment, LumpPlace, LumpReader, LUMP_BYTES};
use crate::refusal::Refusal;
use crate::trace::{LumpBranch, Trace};

/// Where a lump leads.
pub(super) struct Walk<'l> {
    /// The reader after it.
    pub(super) reader: LumpReader,
    /// Those bytes of it that are of the movie fragment's body, the last of it so far.
    pub(super) part: &'l [u8],
    lump: &'l [u8],
    /// What is still to be walked.
    rest: &'l [u8],
}

impl<'l> Walk<'l> {
    /// Walks a lump to its end.
    pub(super) fn over<T: Trace>(
        reader: &LumpReader,
        lump: &'l [u8],
        trace: &mut T,
    ) -> Result<Self, Refusal> {
        let mut walk = Self {
            reader: *reader,
            part: &[],
            lump,
            rest: lump,
        };
        while !walk.rest.is_empty() {
            walk.reader.place = match walk.reader.place {
                LumpPlace::Header(cut) => walk.header(cut, trace)?,
                LumpPlace::Body { left, kept } => walk.body(left, kept, trace),
                LumpPlace::Lost => walk.lost(trace),
            };
        }
        Ok(walk)
    }

    /// Goes on with a header, and enters its box where that is whole.
    fn header<T: Trace>(&mut self, cut: CutHeader, trace: &mut T) -> Result<LumpPlace, Refusal> {
        let joined = cut.with(self.rest);
        let Some(header) = joined.read() else {
            self.rest = &[];
            return Ok(LumpPlace::Header(joined));
        };
        trace.lump(match (header.is_large(), cut.count) {
            (false, 0) => LumpBranch::HeaderAtOnce,
            (false, _) => LumpBranch::HeaderJoined,
            (true, 0) => LumpBranch::LargeHeaderAtOnce,
            (true, _) => LumpBranch::LargeHeaderJoined,
        });
        let place = self.enter(&header, &cut, trace)?;
        self.rest = &self.rest[header.length as usize - cut.count..];
        Ok(place)
    }

    /// The place after a header.
    fn enter<T: Trace>(
        &mut self,
        header: &Header,
        cut: &CutHeader,
        trace: &mut T,
    ) -> Result<LumpPlace, Refusal> {
        let Some(left) = header.size.checked_sub(header.length) else {
            trace.lump(match (header.is_large(), header.size) {
                (true, _) => LumpBranch::StoppedByLargeSize,
                (false, 0) => LumpBranch::StoppedByZero,
                (false, _) => LumpBranch::StoppedBySize,
            });
            return Ok(LumpPlace::Lost);
        };
        if header.kind != *b"moof" {
            trace.lump(match u32::try_from(header.size) {
                Ok(_) => LumpBranch::Other,
                Err(_) => LumpBranch::OtherHuge,
            });
            return Ok(LumpPlace::body(left, false));
        }
        if header.size > LUMP_BYTES as u64 {
            self.tell_large(header, cut, trace);
            return Err(Refusal::LargeFragment);
        }
        let first = self.reader.fragment == LumpFragment::None;
        trace.lump(match (first, header.size) {
            (false, _) => LumpBranch::FragmentSecond,
            (true, _) if left == 0 => LumpBranch::FragmentEmpty,
            (true, size) if size == LUMP_BYTES as u64 => LumpBranch::FragmentLargest,
            (true, _) => LumpBranch::Fragment,
        });
        self.reader.fragment = match first {
            true => LumpFragment::One(0),
            false => LumpFragment::Several,
        };
        Ok(LumpPlace::body(left, first))
    }

    /// Tells how a movie fragment's size was read that is too large.
    fn tell_large<T: Trace>(&self, header: &Header, cut: &CutHeader, trace: &mut T) {
        trace.lump(match header.is_large() {
            false => LumpBranch::Large,
            true => LumpBranch::LargeBy64,
        });
        if self.reader.fragment != LumpFragment::None {
            trace.lump(LumpBranch::LargeSecond);
        }
        if self.rest.len() < self.lump.len() {
            trace.lump(LumpBranch::LargeAfterOthers);
        }
        if cut.count > 0 {
            trace.lump(LumpBranch::LargeCut);
        }
    }

    /// Goes on in a body, as far as it reaches.
    fn body<T: Trace>(&mut self, left: u64, kept: bool, trace: &mut T) -> LumpPlace {
        let length =
            usize::try_from(left).map_or(self.rest.len(), |left| left.min(self.rest.len()));
        if length == self.lump.len() {
            trace.lump(match kept {
                true => LumpBranch::AllKept,
                false => LumpBranch::AllPassed,
            });
        }
        let (part, rest) = self.rest.split_at(length);
        self.rest = rest;
        if let (true, LumpFragment::One(bytes)) = (kept, &mut self.reader.fragment) {
            *bytes += length;
            self.part = part;
        }
        LumpPlace::body(left - length as u64, kept)
    }

    /// Where no box can be told, all bytes are passed over.
    fn lost<T: Trace>(&mut self, trace: &mut T) -> LumpPlace {
        if self.rest.len() == self.lump.len() {
            trace.lump(LumpBranch::AllLost);
        }
        self.rest = &[];
        LumpPlace::Lost
    }
}
