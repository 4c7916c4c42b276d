//! The proved frame buffer, safe to call from Rust.
//!
//! The calls are those of `include/galumper.h`, in place on a [`Buffer`] that the program owns.
//! Every function of the static library is proved for any bits that it is handed. It asks of its
//! caller that each list has the places that its length says, and that what it may write to is
//! lent to nobody else: a slice has them, and a `&mut` is lent once.
//!
//! ```
//! use galumper::{Fate, Kind, Offered, Range, FATES, RANGES};
//!
//! # fn main() -> Result<(), galumper::Refusal> {
//! let mut buffer = galumper::create(&[Kind::VIDEO])?;
//! let frame = Offered { track: 1, flagged: true, duration: 40_000, pts: 0, dts: 0 };
//! let lines = buffer.append(frame, &mut [Fate::default(); FATES])?;
//! assert_eq!(lines, 0); // it is kept, and no other frame is lost
//!
//! let mut ranges = [Range::default(); RANGES];
//! let count = buffer.track_ranges(1, &mut ranges)?;
//! assert_eq!(ranges[..count], [Range { start: 0, end: 40_000 }]);
//! assert!(galumper::held(&ranges[..count], 39_999));
//! # Ok(())
//! # }
//! ```

mod again;
mod batch;
mod buffer;
mod calls;
mod feed;
mod foreign;
mod listing;
mod lists;
mod lump;
mod names;
mod reader;
mod seek;
mod segment;

pub use batch::{Batch, BATCH, BATCH_FATES};
pub use buffer::{
    Buffer, Group, Head, Offered, Setting, Settings, Tags, Times, Track, FORMER_SIZE, PLACES, SIZE,
    TRACKS,
};
pub use calls::{create, matches, Reading};
pub use feed::{feed, Feed};
pub use listing::{ListedFrame, SegmentTrack};
pub use lists::{held, Fate, Range, FATES, RANGES};
pub use lump::LUMP;
pub use names::{Cause, Kind, Mode, Refusal};
pub use reader::LumpReader;
pub use seek::Start;
pub use segment::list_segment;
