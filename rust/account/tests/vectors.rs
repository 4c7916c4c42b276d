//! The balance holds for every script of `vectors/` that can be read and has no poke.

use std::fs;
use std::path::{Path, PathBuf};

use account::{read, text, Run};

fn scripts() -> Vec<PathBuf> {
    let folder = Path::new(env!("CARGO_MANIFEST_DIR")).join("../vectors");
    let entries = fs::read_dir(folder).expect("the folder of the vectors");
    entries
        .map(|entry| entry.expect("an entry of the folder").path())
        .filter(|path| path.extension().is_some_and(|word| word == "script"))
        .collect()
}

#[test]
fn the_balance_holds_without_pokes() {
    let mut accounts = 0;
    for path in scripts() {
        let script = fs::read_to_string(&path).expect("a script");
        let Ok(calls) = read(&script) else {
            continue;
        };
        let run = Run::of(&calls);
        if run.poked().is_none() {
            let text = text("a script", &run);
            assert!(run.balances(), "{path:?}\n{text}");
            assert!(text.ends_with("\nThe balance holds.\n"), "{path:?}");
            accounts += 1;
        }
    }
    println!("{accounts} accounts balance");
    assert!(accounts > 0, "no account was drawn up");
}
