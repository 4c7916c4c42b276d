//! Counting the calls in the last group by what they were answered, and what they would have been
//! answered before it.

use script::Call;

use super::met::{Meets, Tests};
use crate::last_group::LastGroup;
use crate::told::fates;

impl Meets for LastGroup {
    const NAME: &'static str = "in the last group";
    const HEAD: &'static str = "Call in the last group";
    const TESTS: Tests<Self> = &[
        ("append, stored", |call| {
            is_append(call) && stores(&call.answer)
        }),
        ("append, dropped", |call| {
            is_append(call) && drops(&call.answer)
        }),
        ("append refused 9, would be stored", |call| {
            is_append(call) && call.begins && stores(&call.twin)
        }),
        ("append refused 9, would be dropped", |call| {
            is_append(call) && call.begins && drops(&call.twin)
        }),
        ("append refused 9, else 8", |call| {
            is_append(call) && call.begins && call.twin == "refused 8"
        }),
        ("append refused 7, else 9", |call| {
            is_append(call) && call.begins && call.answer == "refused 7"
        }),
        ("append refused 8, and begins no group", |call| {
            is_append(call) && !call.begins && call.answer == "refused 8"
        }),
        ("remove refused 9", |call| {
            matches!(call.call, Call::Remove(..)) && call.begins
        }),
        ("remove, frames lost", |call| {
            matches!(call.call, Call::Remove(..)) && fates(&call.answer).count() > 0
        }),
        ("abort refused 9", |call| {
            call.call == Call::Abort && call.known
        }),
        ("abort refused 9, nothing set", |call| {
            call.call == Call::Abort && !call.known
        }),
    ];
}

fn is_append(call: &LastGroup) -> bool {
    matches!(call.call, Call::Append(..))
}

/// Whether an append was answered that its frame is dropped.
fn drops(answer: &str) -> bool {
    fates(answer).any(|(_, cause)| cause <= 3)
}

fn stores(answer: &str) -> bool {
    answer.starts_with("ok") && !drops(answer)
}
