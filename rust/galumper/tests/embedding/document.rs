//! The tables of `docs/EMBEDDING.md` say what the header and the binding say.

use std::fs;

use galumper::Refusal;

use crate::compiler::repository;
use crate::header::{header, number};

pub fn document() -> String {
    fs::read_to_string(repository().join("docs/EMBEDDING.md")).expect("a document")
}

/// The calls of the header, each with its refusals as the comment before it ends, or `never`.
pub fn calls(header: &str) -> Vec<(String, String)> {
    let mut parts = header.split("/* ---- ");
    let calls = parts.find(|part| part.starts_with("the calls"));
    let calls = calls.expect("the calls").replace("\n * ", " ");
    let calls = calls.replace("Never refused", "Refused never");
    let refused = calls.split("Refused ").skip(1);
    let call = |refused: &str| {
        let (order, rest) = refused.split_at(refused.find(['.', 'a']).expect("an end"));
        let (_, declared) = rest.split_once("static inline ").expect("a function");
        let name = declared.split(['(', ' ']).nth(1).expect("a name");
        (name.into(), order.trim_end_matches([',', ' ']).into())
    };
    refused.map(call).collect()
}

#[test]
fn every_call_with_its_refusals() {
    let (calls, document) = (calls(&header()), document());
    assert_eq!(calls.len(), 18);
    for (name, order) in calls {
        let (start, end) = (format!("| `{name}` | "), format!(" | {order} |"));
        let mut rows = document.lines().filter(|row| row.starts_with(&start));
        assert!(rows.any(|row| row.ends_with(&end)), "{name}: {order}");
    }
}

/// The header's name of a refusal: `GALUMPER_NO_TRACK` for `NoTrack`.
fn named(refusal: Refusal) -> String {
    let mut name = String::from("GALUMPER");
    for letter in format!("{refusal:?}").chars() {
        if letter.is_uppercase() {
            name.push('_');
        }
        name.push(letter.to_ascii_uppercase());
    }
    name
}

#[test]
fn every_refusal() {
    let (header, document) = (header(), document());
    for &refusal in Refusal::ALL {
        let name = named(refusal);
        let number = number(&header, &name);
        let row = format!("\n| {number} | `{name}` | `{refusal:?}` | {refusal} |\n");
        assert!(document.contains(&row), "{row}");
    }
}

#[test]
fn every_count() {
    let (header, document) = (header(), document());
    let lists = ["FATES", "BATCH", "BATCH_FATES", "RANGES", "LUMP"];
    for name in ["PLACES", "TRACKS", "SIZE"].iter().chain(&lists) {
        let count = number(&header, &format!("GALUMPER_{name}"));
        let row = format!("\n| `GALUMPER_{name}` | `{name}` | {count} | ");
        assert!(document.contains(&row), "{row}");
    }
}

#[test]
fn the_version_and_its_number() {
    let abi = number(&header(), "GALUMPER_ABI");
    let row = format!("\n| {} | {abi} | ", env!("CARGO_PKG_VERSION"));
    assert!(document().contains(&row), "{row}");
}
