//! A segment that comes in lumps: however it is cut, its end is answered as the whole is; each refusal
//! comes in its order; and nothing is touched that a call has to leave alone.

mod boxes;
mod conditions;
mod cuts;
mod ends;
mod large;
mod link;
mod refusals;
