//! The reader that goes from lump to lump, and refusal 1.

use super::header::CutHeader;
use crate::refusal::Refusal;
use crate::segment::boxes::HEADER;
use crate::trace::{LumpBranch, Trace};

/// The most bytes of a lump and of a movie fragment box, and those of a buffer that are written to.
pub const LUMP_BYTES: usize = 65_536;

/// The most bytes of a movie fragment's body, which is what a buffer holds.
const LARGEST_BODY: u64 = LUMP_BYTES as u64 - HEADER;

/// What is known of a segment whose lumps have come so far. A fresh one knows of none.
#[derive(Clone, Copy, Debug, Default, PartialEq, Eq)]
pub struct LumpReader {
    /// Where the next byte stands.
    pub place: LumpPlace,
    /// The movie fragment.
    pub fragment: LumpFragment,
}

/// Where in a segment the next byte stands.
#[derive(Clone, Copy, Debug, PartialEq, Eq)]
pub enum LumpPlace {
    /// In a header, after these bytes of it.
    Header(CutHeader),
    /// In a body of which so many bytes are to come, and which is the movie fragment's or passed over.
    Body {
        /// The bytes to come.
        left: u64,
        /// Whether they are kept.
        kept: bool,
    },
    /// After a size that does not hold its own header: no box can be told any more.
    Lost,
}

/// What has come of a segment's movie fragments.
#[derive(Clone, Copy, Debug, Default, PartialEq, Eq)]
pub enum LumpFragment {
    /// None.
    #[default]
    None,
    /// One, so many bytes of whose body are in the buffer.
    One(usize),
    /// More than one, so that none matters.
    Several,
}

impl LumpPlace {
    /// After a header's last byte, or that of a body.
    pub(super) fn body(left: u64, kept: bool) -> Self {
        match left {
            0 => Self::default(),
            _ => Self::Body { left, kept },
        }
    }
}

impl Default for LumpPlace {
    /// Before a header, the first or the next.
    fn default() -> Self {
        Self::Header(CutHeader::default())
    }
}

impl LumpReader {
    /// Refusal 1: a condition fails that every reader handed out meets.
    pub(super) fn check<T: Trace>(&self, trace: &mut T) -> Result<(), Refusal> {
        let fault = match self.place {
            LumpPlace::Header(cut) => header_fault(&cut).or_else(|| self.kept_fault(0)),
            LumpPlace::Body { left: 0, .. } => Some(LumpBranch::BodyOver),
            LumpPlace::Body { left, kept: true } => match self.fragment {
                LumpFragment::One(_) => self.kept_fault(left),
                _ => Some(LumpBranch::KeptOfNone),
            },
            LumpPlace::Body { .. } | LumpPlace::Lost => self.kept_fault(0),
        };
        match fault {
            None => Ok(()),
            Some(branch) => {
                trace.lump(branch);
                Err(Refusal::IllFormed)
            }
        }
    }

    /// A movie fragment of which so many bytes are to come has no room in the buffer.
    fn kept_fault(&self, left: u64) -> Option<LumpBranch> {
        let LumpFragment::One(bytes) = self.fragment else {
            return None;
        };
        let within = (bytes as u64)
            .checked_add(left)
            .is_some_and(|length| length <= LARGEST_BODY);
        (!within).then_some(LumpBranch::KeptBeyond)
    }
}

/// A cut header is cut: it is not whole, and has nothing past its end.
fn header_fault(cut: &CutHeader) -> Option<LumpBranch> {
    if cut.count >= cut.bytes.len() {
        return Some(LumpBranch::HeaderOver);
    }
    if cut.read().is_some() {
        return Some(LumpBranch::HeaderWhole);
    }
    let past = cut.bytes[cut.count..].iter().any(|byte| *byte != 0);
    past.then_some(LumpBranch::HeaderPast)
}
