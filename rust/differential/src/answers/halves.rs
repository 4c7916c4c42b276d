//! Counting halves of a microsecond by how they were converted. Document 01 went to the even number,
//! so that a half with an even number below it is converted otherwise now.

use super::met::{Meets, Tests};
use crate::halves::{HandedHalf, KeptHalf, Time};
use crate::told::fates;

impl Meets for HandedHalf {
    const NAME: &'static str = "half handed in";
    const HEAD: &'static str = "Half of a microsecond handed in";
    const TESTS: Tests<Self> = &[
        ("offset above zero, even below", |half| {
            set(half, Time::Offset) && !is_negative(half) && even_below(half)
        }),
        ("offset above zero, odd below", |half| {
            set(half, Time::Offset) && !is_negative(half) && !even_below(half)
        }),
        ("offset below zero, even below", |half| {
            set(half, Time::Offset) && is_negative(half) && even_below(half)
        }),
        ("offset below zero, odd below", |half| {
            set(half, Time::Offset) && is_negative(half) && !even_below(half)
        }),
        ("window start, even below", |half| {
            set(half, Time::WindowStart) && even_below(half)
        }),
        ("window start, odd below", |half| {
            set(half, Time::WindowStart) && !even_below(half)
        }),
        ("window end, even below", |half| {
            set(half, Time::WindowEnd) && even_below(half)
        }),
        ("window end, odd below", |half| {
            set(half, Time::WindowEnd) && !even_below(half)
        }),
        ("removal start, even below", |half| {
            removed(half, Time::RemovalStart) && even_below(half)
        }),
        ("removal start, odd below", |half| {
            removed(half, Time::RemovalStart) && !even_below(half)
        }),
        ("removal end, even below", |half| {
            removed(half, Time::RemovalEnd) && even_below(half)
        }),
        ("removal end, odd below", |half| {
            removed(half, Time::RemovalEnd) && !even_below(half)
        }),
        ("window below zero, even below, 6", |half| {
            is_of_window(half) && is_negative(half) && even_below(half) && out_of_order(half)
        }),
        ("window below zero, odd below, 6", |half| {
            is_of_window(half) && is_negative(half) && !even_below(half) && out_of_order(half)
        }),
        ("removal below zero, even below, 6", |half| {
            is_of_removal(half) && is_negative(half) && even_below(half) && out_of_order(half)
        }),
        ("removal below zero, odd below, 6", |half| {
            is_of_removal(half) && is_negative(half) && !even_below(half) && out_of_order(half)
        }),
        ("window start up to the end, 6", |half| {
            half.time == Time::WindowStart && up_to_other(half) && out_of_order(half)
        }),
        ("window end up from the start", |half| {
            set(half, Time::WindowEnd) && up_from_other(half)
        }),
        ("removal start up to the end, 6", |half| {
            half.time == Time::RemovalStart && up_to_other(half) && out_of_order(half)
        }),
        ("removal end up from the start", |half| {
            removed(half, Time::RemovalEnd) && up_from_other(half)
        }),
        ("removal start up from a frame, which stays", |half| {
            removed(half, Time::RemovalStart) && even_below(half) && point_goes(half) == Some(false)
        }),
        ("removal end up from a flagged frame, which goes", |half| {
            removed(half, Time::RemovalEnd) && even_below(half) && point_goes(half) == Some(true)
        }),
    ];
}

fn set(half: &HandedHalf, time: Time) -> bool {
    half.time == time && half.answer == "ok" && half.set == Some(half.half.up())
}

fn removed(half: &HandedHalf, time: Time) -> bool {
    half.time == time && half.answer.starts_with("ok")
}

fn is_of_window(half: &HandedHalf) -> bool {
    matches!(half.time, Time::WindowStart | Time::WindowEnd)
}

fn is_of_removal(half: &HandedHalf) -> bool {
    matches!(half.time, Time::RemovalStart | Time::RemovalEnd)
}

fn out_of_order(half: &HandedHalf) -> bool {
    half.answer == "refused 6"
}

fn is_negative(half: &HandedHalf) -> bool {
    half.half.double() < 0.0
}

fn even_below(half: &HandedHalf) -> bool {
    half.half.below() == half.half.even()
}

/// Whether it goes up to the time that it is compared with, where document 01 went down.
fn up_to_other(half: &HandedHalf) -> bool {
    even_below(half) && half.other == Some(half.half.up())
}

/// Whether it goes up from the time that it is compared with, where document 01 went down to that.
fn up_from_other(half: &HandedHalf) -> bool {
    even_below(half) && half.other == Some(half.half.below())
}

/// Whether the random access point at the number below is removed, if there is one.
fn point_goes(half: &HandedHalf) -> Option<bool> {
    let point = half.point_below?;
    Some(fates(&half.answer).any(|(number, _)| number == point))
}

impl Meets for KeptHalf {
    const NAME: &'static str = "half kept";
    const HEAD: &'static str = "Half of a microsecond kept";
    const TESTS: Tests<Self> = &[
        ("offset above zero, taken", |kept| {
            is_taken(kept) && kept.time == Time::Offset && kept.micros > 0
        }),
        ("offset above zero, by document 01, 1", |kept| {
            kept.is_outdated() && kept.time == Time::Offset && kept.micros > 0
        }),
        ("offset below zero, taken", |kept| {
            is_taken(kept) && kept.time == Time::Offset && kept.micros < 0
        }),
        ("offset below zero, by document 01, 1", |kept| {
            kept.is_outdated() && kept.time == Time::Offset && kept.micros < 0
        }),
        ("window start, taken", |kept| {
            is_taken(kept) && kept.time == Time::WindowStart
        }),
        ("window start, by document 01, 1", |kept| {
            kept.is_outdated() && kept.time == Time::WindowStart
        }),
        ("window end, taken", |kept| {
            is_taken(kept) && kept.time == Time::WindowEnd
        }),
        ("window end, by document 01, 1", |kept| {
            kept.is_outdated() && kept.time == Time::WindowEnd
        }),
    ];
}

/// Whether it was taken for microseconds that document 01 does not have.
fn is_taken(kept: &KeptHalf) -> bool {
    !kept.refused && kept.micros == kept.half.up() && kept.micros != kept.half.even()
}
