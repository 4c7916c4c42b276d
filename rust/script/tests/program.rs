//! The program `second-replay`: its answers, and what it tells of lines that were not read.

use std::io::Write;
use std::process::{Command, Stdio};

/// What it writes on standard output and standard error.
fn told(script: &[u8]) -> [String; 2] {
    let mut program = Command::new(env!("CARGO_BIN_EXE_second-replay"))
        .stdin(Stdio::piped())
        .stdout(Stdio::piped())
        .stderr(Stdio::piped())
        .spawn()
        .expect("the program runs");
    let mut input = program.stdin.take().expect("its standard input");
    input.write_all(script).expect("the script is taken");
    drop(input);
    let output = program.wait_with_output().expect("the program ends");
    assert!(output.status.success());
    [output.stdout, output.stderr].map(|bytes| String::from_utf8(bytes).expect("text"))
}

#[test]
fn a_script_that_is_read() {
    let script = b"\xef\xbb\xbfcreate 0\r\n\r\n# \xe9t\xe9\nabort";
    assert_eq!(told(script), ["ok\nok\n", ""]);
}

#[test]
fn lines_that_are_not_read() {
    let script = b"create 0\nappendd 1 0 0 40000 1\r\nbatch 1\nframe 1\n";
    let report = "replay: 2 lines were not read; the first is line 2: appendd 1 0 0 40000 1\n";
    assert_eq!(told(script), ["ok\nunknown\nunknown\n", report]);
}
