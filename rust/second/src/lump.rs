//! Document 02, No. 5, "The radio link cuts segments anywhere": a segment that comes in lumps. The body
//! of its movie fragment is kept in a lent buffer, and at the end it is listed as the whole would be.
//!
//! A lump is walked first. Reader and buffer change after the last refusal alone: a lump with the end
//! changes the reader only, and where the movie fragment is not in one piece its parts are joined in
//! room of their own.

mod header;
mod reader;
mod walk;

use std::borrow::Cow;

use crate::refusal::Refusal;
use crate::segment::{list_movie_fragment, Row, SegmentTrack};
use crate::trace::{LumpBranch, Trace};
pub use header::CutHeader;
use header::SIZE_AND_TYPE;
pub use reader::{LumpFragment, LumpPlace, LumpReader, LUMP_BYTES};
use walk::Walk;

/// Takes a lump of a segment. At the end it lists a track's frames in file order, gives their count and
/// leaves the reader fresh; before it the count is 0. The buffer is the one last lent, as it was left.
pub fn take_lump(
    of: SegmentTrack,
    reader: &mut LumpReader,
    buffer: &mut [u8],
    lump: &[u8],
    last: bool,
    list: &mut [Row],
) -> Result<usize, Refusal> {
    take_lump_traced(of, reader, buffer, lump, last, list, &mut ())
}

/// [`take_lump`], telling its branches.
pub fn take_lump_traced<T: Trace>(
    of: SegmentTrack,
    reader: &mut LumpReader,
    buffer: &mut [u8],
    lump: &[u8],
    last: bool,
    list: &mut [Row],
    trace: &mut T,
) -> Result<usize, Refusal> {
    reader.check(trace)?;
    check_sizes(buffer, lump, trace)?;
    let walk = Walk::over(reader, lump, trace)?;
    if !last {
        keep(&walk, buffer);
        *reader = walk.reader;
        tell_cut(reader, lump, trace);
        return Ok(0);
    }
    trace.lump(match lump {
        [] => LumpBranch::EndAlone,
        _ => LumpBranch::EndWithLump,
    });
    let count = list_end(of, &walk, buffer, list, trace)?;
    *reader = LumpReader::default();
    Ok(count)
}

/// Refusal 13.
fn check_sizes<T: Trace>(buffer: &[u8], lump: &[u8], trace: &mut T) -> Result<(), Refusal> {
    if lump.len() > LUMP_BYTES {
        trace.lump(LumpBranch::LumpLong);
        return Err(Refusal::LentSize);
    }
    if buffer.len() < LUMP_BYTES {
        trace.lump(LumpBranch::BufferShort);
        return Err(Refusal::LentSize);
    }
    if lump.len() == LUMP_BYTES {
        trace.lump(LumpBranch::LumpLongest);
    }
    if buffer.len() > LUMP_BYTES {
        trace.lump(LumpBranch::BufferLonger);
    }
    Ok(())
}

/// Puts a lump's part of the movie fragment's body behind the parts before it.
fn keep(walk: &Walk, buffer: &mut [u8]) {
    if let LumpFragment::One(bytes) = walk.reader.fragment {
        buffer[bytes - walk.part.len()..bytes].copy_from_slice(walk.part);
    }
}

/// Tells where a lump without the end leaves its reader.
fn tell_cut<T: Trace>(reader: &LumpReader, lump: &[u8], trace: &mut T) {
    if lump.is_empty() {
        trace.lump(LumpBranch::Nothing);
        return;
    }
    trace.lump(match reader.place {
        LumpPlace::Header(cut) => match cut.count {
            0 => LumpBranch::CutBetween,
            1..SIZE_AND_TYPE => LumpBranch::CutInHeader,
            SIZE_AND_TYPE => LumpBranch::CutBeforeLargeSize,
            _ => LumpBranch::CutInLargeSize,
        },
        LumpPlace::Body { kept: true, .. } => LumpBranch::CutInKept,
        LumpPlace::Body { kept: false, .. } => LumpBranch::CutInPassed,
        LumpPlace::Lost => LumpBranch::CutLost,
    });
}

/// Lists the frames of a segment that ends where a lump does.
fn list_end<T: Trace>(
    of: SegmentTrack,
    walk: &Walk,
    buffer: &[u8],
    list: &mut [Row],
    trace: &mut T,
) -> Result<usize, Refusal> {
    let bytes = whole_body(&walk.reader).map_err(|branch| {
        trace.lump(branch);
        Refusal::Malformed
    })?;
    let earlier = &buffer[..bytes - walk.part.len()];
    let (branch, body) = match (earlier, walk.part) {
        (_, []) => (LumpBranch::BodyEarlier, Cow::from(earlier)),
        ([], part) => (LumpBranch::BodyLast, Cow::from(part)),
        (_, part) => (LumpBranch::BodyAstride, [earlier, part].concat().into()),
    };
    trace.lump(branch);
    let listed = list_movie_fragment(of, &body, list, trace);
    trace.lump(match listed {
        Ok(_) => LumpBranch::Listed,
        Err(Refusal::Malformed) => LumpBranch::ListMalformed,
        Err(Refusal::OfferedLimits) => LumpBranch::ListLimits,
        Err(_) => LumpBranch::ListShort,
    });
    listed
}

/// How many bytes the body of the one movie fragment has, or what is malformed in a segment that ends
/// here.
fn whole_body(reader: &LumpReader) -> Result<usize, LumpBranch> {
    match reader.place {
        LumpPlace::Header(CutHeader { count: 0, .. }) => {}
        LumpPlace::Header(cut) if cut.count < SIZE_AND_TYPE => return Err(LumpBranch::EndInHeader),
        LumpPlace::Header(_) => return Err(LumpBranch::EndInLargeSize),
        LumpPlace::Body { kept: true, .. } => return Err(LumpBranch::EndInKept),
        LumpPlace::Body { kept: false, .. } => return Err(LumpBranch::EndInPassed),
        LumpPlace::Lost => return Err(LumpBranch::EndLost),
    }
    match reader.fragment {
        LumpFragment::None => Err(LumpBranch::EndMissing),
        LumpFragment::One(bytes) => Ok(bytes),
        LumpFragment::Several => Err(LumpBranch::EndDoubled),
    }
}
