//! The modules of every crate stand in layers: none imports, directly or round corners, a module
//! that imports it. Modules of tests may.

mod graph;
mod source;

use std::fs;
use std::path::{Path, PathBuf};

/// The folders `src` of the workspace's crates, in order of name.
fn sources() -> Vec<PathBuf> {
    let workspace = Path::new(env!("CARGO_MANIFEST_DIR")).join("..");
    let entries = fs::read_dir(workspace).expect("the folder of the workspace");
    let mut folders: Vec<PathBuf> = entries
        .map(|entry| entry.expect("an entry of the workspace").path())
        .filter(|path| path.join("Cargo.toml").is_file())
        .map(|path| path.join("src"))
        .collect();
    folders.sort();
    folders
}

#[test]
fn no_module_imports_one_that_imports_it() {
    let folders = sources();
    assert!(!folders.is_empty(), "no crates there");
    for folder in folders {
        let graph = source::graph(&source::modules(&folder));
        let circle = graph::circle(&graph).map(|names| names.join(" -> "));
        assert_eq!(circle, None, "a circle in {}", folder.display());
    }
}

#[test]
fn imports_are_seen() {
    let own = Path::new(env!("CARGO_MANIFEST_DIR")).join("src");
    let graph = source::graph(&source::modules(&own));
    assert!(graph["crate::poke"].contains("crate::words"));
    assert!(graph["crate"].contains("crate::poke"));
}
