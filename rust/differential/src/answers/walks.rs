//! Counting the walks of reports by what they met.

use super::met::{Meets, Tests};
use crate::walk::Walk;

impl Meets for Walk {
    const NAME: &'static str = "walk";
    const HEAD: &'static str = "Walk of a report";
    const TESTS: Tests<Self> = &[
        ("no frame", |walk| walk.frames == 0),
        ("all taken", |walk| walk.frames > 0 && !walk.left()),
        ("all taken, into as many places as ranges", |walk| {
            walk.frames > 0 && walk.ranges == walk.places
        }),
        ("all taken, stored in another order", |walk| {
            walk.reordered && !walk.left()
        }),
        ("left early, the report refused 10", Walk::left),
        ("left early, no place lent", |walk| {
            walk.left() && walk.places == 0
        }),
        ("left early, at the last frame", |walk| {
            walk.left() && walk.taken == walk.frames
        }),
        ("left early, stored in another order", |walk| {
            walk.left() && walk.reordered && walk.taken < walk.frames
        }),
        ("left early, at one of several of its time", |walk| {
            walk.left() && walk.tied
        }),
    ];
}
