//! Links the static library that `.ci/archive` writes: from the folder that the variable
//! `GALUMPER_LIB_DIR` names, else from `target/staticlib` of the repository.

use std::env;
use std::path::{Path, PathBuf};

const VARIABLE: &str = "GALUMPER_LIB_DIR";

fn main() {
    let named = env::var_os(VARIABLE).filter(|folder| !folder.is_empty());
    let folder = named.map_or_else(of_the_repository, PathBuf::from);
    let archive = folder.join("libgalumper.a");
    println!("cargo::rerun-if-env-changed={VARIABLE}");
    println!("cargo::rerun-if-changed={}", archive.display());
    if !archive.is_file() {
        println!(
            "cargo::error=there is no {}: run `.ci/archive` in the repository, or let \
             {VARIABLE} name the folder that has libgalumper.a",
            archive.display()
        );
        return;
    }
    println!("cargo::rustc-link-search=native={}", folder.display());
    println!("cargo::rustc-link-lib=static=galumper");
    // The tests that build programs in C link the same one.
    println!("cargo::rustc-env=GALUMPER_ARCHIVE={}", archive.display());
}

fn of_the_repository() -> PathBuf {
    let own = env::var("CARGO_MANIFEST_DIR").expect("cargo names the folder");
    let repository = Path::new(&own).ancestors().nth(2).expect("two folders up");
    repository.join("target/staticlib")
}
