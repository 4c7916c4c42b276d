//! The compilers of C and C++: a program is built against a header and the library, and run.

use std::path::{Path, PathBuf};
use std::process::Command;
use std::{env, fs};

/// Nothing in a program or in the header may be warned of.
const WARNINGS: [&str; 5] = ["-Wall", "-Wextra", "-pedantic", "-Wconversion", "-Werror"];

/// Ends a program at an access outside of what it has, and at anything undefined.
const SANITIZED: [&str; 2] = ["-fsanitize=address,undefined", "-fno-sanitize-recover=all"];

pub fn repository() -> PathBuf {
    Path::new(env!("CARGO_MANIFEST_DIR")).join("../..")
}

/// The folder of the header.
pub fn include() -> PathBuf {
    repository().join("include")
}

/// The source of a program of these tests.
pub fn source(name: &str) -> PathBuf {
    Path::new(env!("CARGO_MANIFEST_DIR"))
        .join("tests/embedding")
        .join(name)
}

/// A folder for what a test makes.
pub fn folder(name: &str) -> PathBuf {
    let folder = Path::new(env!("CARGO_TARGET_TMPDIR")).join(name);
    fs::create_dir_all(&folder).expect("a folder");
    folder
}

/// Builds a program, in C++17 if its source ends so and else in C11; tells what the compiler says
/// if it does not take it.
pub fn build(
    source: &Path,
    include: &Path,
    program: &Path,
    options: &[&str],
) -> Result<(), String> {
    let (compiler, standard) = match source.extension().is_some_and(|end| end == "cpp") {
        true => ("c++", "-std=c++17"),
        false => ("cc", "-std=c11"),
    };
    let output = Command::new(compiler)
        .args([standard, "-O2"])
        .args(WARNINGS)
        .args(options)
        .arg("-I")
        .arg(include)
        .arg("-o")
        .arg(program)
        .arg(source)
        .arg(env!("GALUMPER_ARCHIVE"))
        .output()
        .expect("a compiler");
    match output.status.success() {
        true => Ok(()),
        false => Err(String::from_utf8_lossy(&output.stderr).into_owned()),
    }
}

/// A program that is built as it is released.
pub fn released(source: &Path, folder: &Path) -> Command {
    let program = folder.join("released");
    build(source, &include(), &program, &[]).unwrap_or_else(|said| panic!("{said}"));
    Command::new(program)
}

/// A program that is built to end at the first fault, where the compiler can do that.
pub fn watched(source: &Path, include: &Path, folder: &Path) -> Command {
    let program = folder.join("watched");
    let options: &[&str] = match has_sanitizers(folder) {
        true => &SANITIZED,
        false => &[],
    };
    build(source, include, &program, options).unwrap_or_else(|said| panic!("{said}"));
    Command::new(program)
}

fn has_sanitizers(folder: &Path) -> bool {
    let probe = folder.join("probe.cpp");
    fs::write(&probe, "int main() {}\n").expect("a file");
    build(&probe, folder, &folder.join("probe"), &SANITIZED).is_ok()
}

/// What a program writes that is watched.
pub fn written_watched(source: &Path, include: &Path, folder: &Path) -> String {
    output(&mut watched(source, include, folder))
}

/// What a program writes.
pub fn output(program: &mut Command) -> String {
    let output = program.output().expect("a program that runs");
    let said = String::from_utf8_lossy(&output.stderr);
    assert!(output.status.success(), "{program:?}: {said}");
    String::from_utf8(output.stdout).expect("text")
}
