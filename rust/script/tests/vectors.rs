//! Every script of a folder gets exactly the answers that stand beside it.
//!
//! The folder is the one that the environment variable `VECTORS` names, else `vectors/` of the
//! workspace.

use std::path::{Path, PathBuf};
use std::{env, fs};

use script::{calls, lines, Proved, Second, Session, Subject};

/// The scripts of the folder, in order of name.
fn scripts() -> Vec<PathBuf> {
    let own = Path::new(env!("CARGO_MANIFEST_DIR")).join("../vectors");
    let folder = env::var_os("VECTORS").map_or(own, PathBuf::from);
    let entries = fs::read_dir(folder).expect("the folder of the vectors");
    let mut scripts: Vec<PathBuf> = entries
        .map(|entry| entry.expect("an entry of the folder").path())
        .filter(|path| {
            path.extension()
                .is_some_and(|extension| extension == "script")
        })
        .collect();
    scripts.sort();
    assert!(!scripts.is_empty(), "no scripts there");
    scripts
}

/// Compares answers one by one; gives their count.
fn compare<S: Subject>(path: &Path, subject: &mut S) -> usize {
    let script = fs::read_to_string(path).expect("a script");
    let wanted = fs::read_to_string(path.with_extension("answers")).expect("its answers");
    let mut wanted = wanted.lines();
    let mut session = Session::new(subject);
    let mut count = 0;
    for call in calls(lines(&script)) {
        if let Some(answer) = session.answer(&call) {
            count += 1;
            let wanted = wanted.next();
            assert_eq!(Some(answer.as_str()), wanted, "{path:?}, {count}: {call}");
        }
    }
    assert_eq!(wanted.next(), None, "{path:?}: an answer too many");
    count
}

/// Puts every script to an implementation.
fn compare_all<S: Subject>(mut subject: S) {
    let scripts = scripts();
    let answers: usize = scripts.iter().map(|path| compare(path, &mut subject)).sum();
    println!("{} scripts, {answers} answers right", scripts.len());
}

#[test]
fn every_answer_of_second_is_right() {
    compare_all(Second::<()>::default());
}

#[test]
fn every_answer_of_the_proved_library_is_right() {
    compare_all(Proved);
}
