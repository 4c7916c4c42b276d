//! Scripts of calls in the line protocol of the program `replay`, put to any implementation of
//! the frame buffer: one call a line, one answer a line. Only a batch has more lines, one for each
//! of its frames.
//!
//! An implementation takes part by its [`Subject`]. The words of the paper that both sides need
//! (a frame as offered, a mode, a segment's track, a whole state to look at) are those of the crate
//! `second`.

#![forbid(unsafe_code)]

mod batch;
mod call;
mod calls;
mod lent;
mod lines;
mod lump;
mod place;
mod poke;
mod print;
mod proved;
mod session;
mod subject;
mod unread;
mod words;

pub use batch::{row_of, Batch};
pub use call::Call;
pub use calls::{calls, placed_calls, Calls, PlacedCall};
pub use lines::lines;
pub use lump::Lump;
pub use place::Place;
pub use poke::{FrameField, Poke, TrackField};
pub use print::{bits, digits, state_line};
pub use proved::Proved;
pub use session::Session;
pub use subject::{Declined, Second, Subject};
pub use unread::{report, shown, unread, UnreadLine};
