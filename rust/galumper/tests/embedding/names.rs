//! Refusals and causes in words: each has its own, and they are the same in C and in Rust.

use std::collections::BTreeSet;

use galumper::{Cause, Kind, Refusal};

use crate::compiler::{folder, include, source, written_watched};

#[test]
fn the_words_are_the_same_in_both_languages() {
    let refusals = Refusal::ALL.iter();
    let refusals = refusals.map(|refusal| format!("refusal {}: {refusal}\n", refusal.number()));
    let causes = (0..=7).map(|cause| format!("cause {cause}: {}\n", Cause(cause)));
    let wanted: String = refusals.chain(causes).collect();
    let written = written_watched(&source("names.c"), &include(), &folder("names"));
    assert_eq!(written, wanted);
}

#[test]
fn each_has_words_of_its_own() {
    let refusals: BTreeSet<String> = Refusal::ALL.iter().map(Refusal::to_string).collect();
    assert_eq!(refusals.len(), 15);
    let causes: BTreeSet<String> = (0..=6).map(|cause| Cause(cause).to_string()).collect();
    assert_eq!(causes.len(), 7, "the six, and the words for any other");
    let kinds = [Kind::VIDEO, Kind::AUDIO, Kind(2)].map(|kind| kind.to_string());
    assert_eq!(kinds, ["video", "audio", "unknown kind"]);
}

#[test]
fn refusals_are_numbered_from_1() {
    let numbers: Vec<u32> = Refusal::ALL
        .iter()
        .map(|refusal| refusal.number())
        .collect();
    assert_eq!(numbers, (1..=15).collect::<Vec<_>>());
}
