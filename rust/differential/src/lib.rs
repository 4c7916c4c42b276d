//! Generated scripts, segments, lists of frames and segments cut into lumps, put to two implementations
//! of the frame buffer at once, and every answer, list and state compared. A batch is compared besides
//! with single appends of its frames, the count of a report's frames with a walk over them and with the
//! report, a seek and what is fed with the request's words, a call in the last group with the same call
//! before it, and a segment that is cut with the whole and with the place where refusal 14 is due.
//!
//! What they reached is counted: each refusal of each call, each stop of a batch, each cause, where
//! halves of a microsecond went, what the walks of reports, seeks, feeds and calls in the last group
//! met, how segments ended that were cut, each clause of the well-formed test, each branch of the
//! steps, of seeks, of what to feed, of the reader of segments and of that of lumps. A run that never
//! reached one of them proves less than it seems to, and fails.

#![forbid(unsafe_code)]

mod account;
mod answers;
mod compare;
mod coverage;
mod fed;
mod generate;
mod halves;
mod last_group;
mod lumps;
mod parting;
mod rng;
mod rows;
mod run;
mod segments;
mod singles;
mod sought;
mod told;
mod walk;
mod writer;

pub use answers::Answers;
pub use compare::compare;
pub use coverage::Coverage;
pub use generate::script;
pub use parting::{Failure, Parting};
pub use run::{run, Plan};
