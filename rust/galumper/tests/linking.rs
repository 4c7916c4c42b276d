//! How a build finds the library, and what a program tells that found another's.

use std::path::{Path, PathBuf};
use std::process::{Command, Output};
use std::{env, fs};

/// A folder for what a test makes, empty.
fn folder(name: &str) -> PathBuf {
    let folder = Path::new(env!("CARGO_TARGET_TMPDIR")).join(name);
    let _ = fs::remove_dir_all(&folder);
    fs::create_dir_all(&folder).expect("a folder");
    folder
}

/// Builds and runs the example, with the library of a folder.
fn console(library: &Path, target: &Path) -> Output {
    Command::new(env!("CARGO"))
        .args(["run", "--offline", "--quiet", "--example", "console"])
        .current_dir(env!("CARGO_MANIFEST_DIR"))
        .env("GALUMPER_LIB_DIR", library)
        .env("CARGO_TARGET_DIR", target)
        .output()
        .expect("a build")
}

fn run(command: &mut Command) {
    assert!(command.status().expect("a program").success());
}

#[test]
fn a_folder_without_the_library() {
    let folder = folder("absent");
    let output = console(&folder, &folder.join("target"));
    let said = String::from_utf8_lossy(&output.stderr);
    assert!(!output.status.success());
    assert!(said.contains("`.ci/archive`"), "{said}");
    assert!(said.contains("GALUMPER_LIB_DIR"), "{said}");
}

#[test]
fn a_library_of_another_layout() {
    let folder = folder("other");
    let source = Path::new(env!("CARGO_MANIFEST_DIR")).join("tests/linking/other.c");
    let object = folder.join("other.o");
    let archive = folder.join("libgalumper.a");
    run(Command::new("cc")
        .arg("-c")
        .arg(source)
        .arg("-o")
        .arg(&object));
    run(Command::new("ar").arg("rcs").arg(archive).arg(&object));
    let output = console(&folder, &folder.join("target"));
    let said = String::from_utf8_lossy(&output.stderr);
    assert!(!output.status.success());
    assert!(said.contains("they do not belong together"), "{said}");
}
