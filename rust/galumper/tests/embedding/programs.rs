//! The programs of `docs/EMBEDDING.md`, each in three languages: they stand there word for word, they
//! are built without a warning, and all three write the same.

use std::path::{Path, PathBuf};
use std::process::Command;
use std::{env, fs};

use crate::compiler::{folder, include, output, released, repository, watched};
use crate::document::document;

/// A program: its name, and its runs, each by the files that it reads, from the folder `rust` on, and what
/// it writes.
struct Program {
    name: &'static str,
    runs: &'static [(&'static [&'static str], &'static str)],
}

const PROGRAMS: [Program; 5] = [
    Program {
        name: "console",
        runs: &[(&[], CONSOLE)],
    },
    Program {
        name: "segment",
        runs: &[(&[DASH], SEGMENT)],
    },
    Program {
        name: "line",
        runs: &[(&[LONG; 20], LINE), (&[LONG], ONCE)],
    },
    Program {
        name: "lumps",
        runs: &[(&[DASH, LARGE, SMOOTH, LONG], LUMPS)],
    },
    Program {
        name: "seek",
        runs: &[(&[INIT, PLAIN, DASH], SEEK)],
    },
];

const DASH: &str = "segments/cases/dash.m4s";
const LONG: &str = "segments/cases/long.m4s";
const PLAIN: &str = "segments/cases/plain.m4s";
const SMOOTH: &str = "segments/cases/smooth.m4s";

/// The start of a movie fragment that has a byte too many for lumps.
const LARGE: &str = "galumper/tests/embedding/large.m4s";

/// An initialization segment, cut down to the boxes that have the numbers of the programs.
const INIT: &str = "galumper/tests/embedding/init.mp4";

const CONSOLE: &str = "\
41960000: the store is full, 225 frames before second 10 go
50960000: the store is full, 250 frames before second 20 go
61960000: the store is full, 250 frames before second 30 go
71960000: the store is full, 250 frames before second 40 go
15 frames, from number 1: its track waits for a random access point
975 frames, from number 16: begins in a removed stretch
held from 40000000 to 60000000
held from 61000000 to 80000000
60500000 is not held
";

const SEGMENT: &str = "\
12 frames of 629 bytes
held from 560000 to 1040000
";

const LINE: &str = "\
full after 1024 frames: 300 before second 10 go
full after 1324 frames: 225 before second 20 go
1500 frames, 975 of them stored
held from 21080000 to 60080000
";

const ONCE: &str = "\
75 frames, 75 of them stored
held from 80000 to 3080000
";

const LUMPS: &str = "\
12 frames of 629 bytes
passed over: a movie fragment is too large for lumps
passed over: the segment is not well-formed
75 frames of 2636 bytes
";

const SEEK: &str = "\
400000: nowhere to start decoding
530000: frame 2, 2 to decode from frame 1 on: 320 426 11 bytes
610000: frame 15, 3 to decode from frame 13 on: 320 428 42 12 bytes
";

fn example(name: &str) -> PathBuf {
    Path::new(env!("CARGO_MANIFEST_DIR"))
        .join("examples")
        .join(name)
}

impl Program {
    /// A built one is run, and writes what it shall.
    fn runs(&self, built: Command) {
        let rust = repository().join("rust");
        for (files, writes) in self.runs {
            let mut run = Command::new(built.get_program());
            run.args(files.iter().map(|file| rust.join(file)));
            assert_eq!(output(&mut run), *writes);
        }
    }

    /// Its source in a language of the header.
    fn compiles(&self, ending: &str) {
        let name = format!("{}.{ending}", self.name);
        let (source, folder) = (example(&name), folder(&name));
        self.runs(released(&source, &folder));
        self.runs(watched(&source, &include(), &folder));
    }
}

#[test]
fn in_c() {
    PROGRAMS.iter().for_each(|program| program.compiles("c"));
}

#[test]
fn in_cpp() {
    PROGRAMS.iter().for_each(|program| program.compiles("cpp"));
}

#[test]
fn in_rust() {
    let test = env::current_exe().expect("a path");
    let built = test.parent().and_then(Path::parent).expect("a folder");
    for program in PROGRAMS {
        program.runs(Command::new(built.join("examples").join(program.name)));
    }
}

#[test]
fn the_document_has_them_word_for_word() {
    let document = document();
    for program in PROGRAMS {
        for ending in ["c", "cpp", "rs"] {
            let name = format!("{}.{ending}", program.name);
            let source = fs::read_to_string(example(&name)).expect("a program");
            assert!(document.contains(&source), "{name}");
            assert!(source.lines().count() < 105, "{name} is long");
        }
        for (_, writes) in program.runs {
            let lines = writes.lines().map(|line| format!("    {line}\n"));
            assert!(document.contains(&lines.collect::<String>()), "{writes}");
        }
    }
}
