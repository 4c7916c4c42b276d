//! An account in words of a script of calls, for an auditor: what became of each coded frame that
//! was accepted, what each track holds and where its holes are, which calls were refused, and the
//! balance of demand 3.
//!
//! The calls are made on the proved library. Every buffer has a book of the frames that were offered
//! to it and of the fate lines that its calls handed out; the balance holds the book against the
//! frames that are stored in the buffer's own state. A book is saved, restored and replaced with its
//! buffer, and what a slot then does not say any more is told with the line of that call.

#![forbid(unsafe_code)]

mod balance;
mod book;
mod kept;
mod lumps;
mod places;
mod reading;
mod run;
mod table;
mod text;
mod words;

pub use reading::{read, ReadCall};
pub use run::Run;
pub use text::text;
