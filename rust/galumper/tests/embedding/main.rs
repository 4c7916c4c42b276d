//! What programs in C and C++ meet: the programs of `docs/EMBEDDING.md`, and the header.

mod again;
mod batch;
mod calls;
mod compiler;
mod document;
mod feed;
mod flags;
mod former;
mod header;
mod held;
mod lump;
mod mismatch;
mod names;
mod programs;
mod seek;
mod segment;
