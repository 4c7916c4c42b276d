//! A second implementation of the frame buffer, written from the paper alone: document 01, and the
//! change requests of document 02 that have landed.
//!
//! It serves as the other party of a comparison and as a yardstick of speed, so it favours plain
//! code over cleverness: one module for each section of the paper, and the state as one struct
//! with public fields, so that tests can hand in any state, also a damaged one.
//!
//! Every call on a state judges that first, gives the first refusal that applies in the paper's
//! order, and leaves state and lent lists alone when it refuses. Listing a segment takes no state, and
//! where it comes in lumps, a reader that is judged as a state is; picking what to feed takes neither,
//! and refuses nothing.

#![forbid(unsafe_code)]

mod append;
mod batch;
mod fault;
mod feed;
mod lump;
mod named;
mod numbers;
mod ranges;
mod refusal;
mod remove;
mod seconds;
mod seek;
mod segment;
mod settings;
mod state;
mod store;
mod trace;
mod walk;
mod well_formed;

pub use append::{append, append_traced};
pub use batch::{append_batch, append_batch_traced, Batch, BATCH_FRAMES, BATCH_LINES};
pub use fault::Fault;
pub use feed::{feed, feed_traced, Feed};
pub use lump::{
    take_lump, take_lump_traced, CutHeader, LumpFragment, LumpPlace, LumpReader, LUMP_BYTES,
};
pub use numbers::{micros, quotient, LONGEST_DURATION, OFFERED_LIMIT, RESULT_LIMIT, SECONDS_LIMIT};
pub use ranges::{common_ranges, track_ranges, walked, Stretch};
pub use refusal::{Cause, Fate, Refusal};
pub use remove::{abort, remove, remove_traced};
pub use seconds::{End, Seconds, Settings};
pub use seek::{seek, seek_traced, Start};
pub use segment::{list_segment, list_segment_traced, Row, SegmentTrack, FINEST_TIMESCALE};
pub use settings::{
    read_settings, set_mode, set_offset, set_window_end, set_window_start, Reading, WindowEnd,
};
pub use state::{
    create, Frame, Head, Maybe, Mode, Offered, State, Track, FRAME_PLACES, TRACK_PLACES,
};
pub use trace::{
    BatchBranch, Branch, FeedBranch, Framing, LumpBranch, Parent, SeekBranch, SegmentBranch, Trace,
};
pub use well_formed::well_formed;
