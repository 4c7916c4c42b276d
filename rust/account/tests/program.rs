//! The program: what it writes, and its exit statuses.

use std::fs;
use std::path::Path;
use std::process::{Command, Output};

fn account_of(path: &Path) -> Output {
    let mut program = Command::new(env!("CARGO_BIN_EXE_account"));
    program.arg(path).output().expect("the program runs")
}

/// The account of a script, which becomes a file of that name.
fn account(name: &str, script: &[u8]) -> Output {
    let path = Path::new(env!("CARGO_TARGET_TMPDIR")).join(name);
    fs::write(&path, script).expect("a file for the script");
    account_of(&path)
}

fn told(output: &Output) -> (Option<i32>, String, String) {
    let text = |bytes: &[u8]| String::from_utf8(bytes.to_vec()).expect("text");
    let status = output.status.code();
    (status, text(&output.stdout), text(&output.stderr))
}

#[test]
fn the_example_has_its_account() {
    let examples = Path::new(env!("CARGO_MANIFEST_DIR")).join("../../examples");
    let wanted = fs::read_to_string(examples.join("survey.account")).expect("the account");
    let output = account_of(&examples.join("survey.script"));
    assert_eq!(told(&output), (Some(0), wanted, String::new()));
}

#[test]
fn a_poke_that_spoils_the_balance() {
    let script = b"create 0\nappend 1 0 0 40000 1\npoke frame 1 number 2\n";
    let (status, text, _) = told(&account("poked.script", script));
    assert_eq!(status, Some(1));
    assert!(text.contains("Line 3 is the first poke"), "{text}");
    assert!(text.ends_with("\nThe balance does not hold.\n"), "{text}");
}

#[test]
fn lines_that_cannot_be_read() {
    let script = b"create 0\nappendd 1\nbatch 1\nframe 1 \xff\nbatch 2\nframe 1 0 0 1 1\nabort\n";
    let (status, text, message) = told(&account("unread.script", script));
    let wanted = "account: 3 lines cannot be read, and no account is drawn up\n\
                  line 2: appendd 1\nline 4: frame 1 \u{fffd}\nline 5: batch 2\n";
    assert_eq!((status, text.as_str()), (Some(2), ""));
    assert_eq!(message, wanted);
}

#[test]
fn a_file_that_is_not_there() {
    let missing = Path::new(env!("CARGO_TARGET_TMPDIR")).join("no such script");
    let (status, text, message) = told(&account_of(&missing));
    assert_eq!((status, text.as_str()), (Some(2), ""));
    assert!(message.starts_with("account: "), "{message}");
}
