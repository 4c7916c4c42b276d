//! A header and a library that do not belong together: the first call tells it, and touches
//! nothing. Each test works on a changed copy of the header.

use std::fs;
use std::path::PathBuf;

use crate::compiler::{build, folder, include, source, written_watched};

const ABI: [&str; 2] = ["#define GALUMPER_ABI 8\n", "#define GALUMPER_ABI 9\n"];
const SIZE: [&str; 2] = [
    "#define GALUMPER_SIZE 37064\n",
    "#define GALUMPER_SIZE 18632\n",
];
const PLACES: [&str; 2] = [
    "#define GALUMPER_PLACES 1024\n",
    "#define GALUMPER_PLACES 512\n",
];

const TOLD: &str =
    "does not match: refused 255, header and library do not belong together, and untouched\n";

/// A folder with a copy of the header in which each of some lines is another.
fn changed(name: &str, lines: &[[&str; 2]]) -> PathBuf {
    let mut header = fs::read_to_string(include().join("galumper.h")).expect("a header");
    for [line, other] in lines {
        assert!(header.contains(line), "{line}");
        header = header.replace(line, other);
    }
    let folder = folder(name);
    fs::write(folder.join("galumper.h"), header).expect("a file");
    folder
}

/// What a creation tells where the header is a changed copy.
fn told(name: &str, lines: &[[&str; 2]]) -> String {
    let folder = changed(name, lines);
    written_watched(&source("mismatch.c"), &folder, &folder)
}

#[test]
fn the_header_as_it_is() {
    assert_eq!(told("same", &[]), "matches: refused 0, done, and touched\n");
}

#[test]
fn another_number() {
    assert_eq!(told("abi", &[ABI]), TOLD);
}

#[test]
fn another_size() {
    assert_eq!(told("size", &[SIZE, PLACES]), TOLD);
}

#[test]
fn a_layout_that_is_not_of_its_stated_size() {
    for (name, line) in [("stated", SIZE), ("laid-out", PLACES)] {
        let folder = changed(name, &[line]);
        let said = build(&source("mismatch.c"), &folder, &folder.join("none"), &[]);
        let said = said.expect_err("a header that does not compile");
        assert!(
            said.contains("a layout that is not the library's"),
            "{said}"
        );
    }
}
