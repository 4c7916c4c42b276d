//! A buffer that was saved before version 0.6.0, loaded in C by the lines that `docs/EMBEDDING.md` has.

use std::fs;

use crate::compiler::{folder, include, source, written_watched};
use crate::document::document;

const WRITTEN: &str = "\
fresh: loaded, the same
full: loaded, the same
not well-formed: not loaded, the same
";

#[test]
fn loaded_in_c() {
    let written = written_watched(&source("former.c"), &include(), &folder("former"));
    assert_eq!(written, WRITTEN);
}

#[test]
fn the_document_has_the_function_word_for_word() {
    let program = fs::read_to_string(source("former.c")).expect("a program");
    let start = program.find("// Loads").expect("the function's comment");
    let end = start + program[start..].find("\n}\n").expect("its end") + 3;
    assert!(document().contains(&program[start..end]));
}
