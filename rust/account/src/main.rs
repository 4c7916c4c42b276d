//! Writes the account of a script of calls.
//!
//! `account SCRIPT`. Exit status 0: the balance holds; 1: it does not; 2: the script cannot be read,
//! or the account not be written.

#![forbid(unsafe_code)]

use std::io::{self, Write};
use std::path::Path;
use std::process::ExitCode;
use std::{env, fs};

use account::{read, text, ReadCall, Run};
use script::{shown, UnreadLine};

/// The exit status where the balance does not hold.
const UNBALANCED: u8 = 1;

/// The exit status where there is no account.
const NO_ACCOUNT: u8 = 2;

fn main() -> ExitCode {
    let words: Vec<_> = env::args_os().skip(1).collect();
    let told = match &words[..] {
        [path] => tell(Path::new(path)),
        _ => Err(b"usage: account SCRIPT\n".to_vec()),
    };
    match told {
        Ok(true) => ExitCode::SUCCESS,
        Ok(false) => ExitCode::from(UNBALANCED),
        Err(message) => {
            // Where standard error cannot be written, the status alone says it.
            let _ = io::stderr().write_all(&message);
            ExitCode::from(NO_ACCOUNT)
        }
    }
}

/// Writes the account and gives whether the balance holds, or what to say where there is none.
fn tell(path: &Path) -> Result<bool, Vec<u8>> {
    let run = Run::of(&calls_of(path)?);
    let name = path.file_name().unwrap_or_default().to_string_lossy();
    let written = io::stdout().write_all(text(&name, &run).as_bytes());
    written.map_err(|_| b"account: standard output could not be written\n".to_vec())?;
    Ok(run.balances())
}

/// The calls of a script, or what is told where it cannot be read.
fn calls_of(path: &Path) -> Result<Vec<ReadCall>, Vec<u8>> {
    let name = path.display();
    let bytes = fs::read(path).map_err(|error| format!("account: {name}: {error}\n"))?;
    read(&String::from_utf8_lossy(&bytes)).map_err(|lines| refusal(&lines))
}

/// What is told of lines that cannot be read.
fn refusal(lines: &[UnreadLine]) -> Vec<u8> {
    let mut message = match lines.len() {
        1 => "account: 1 line cannot be read, and no account is drawn up\n".to_string(),
        count => format!("account: {count} lines cannot be read, and no account is drawn up\n"),
    }
    .into_bytes();
    for line in lines {
        message.extend(format!("line {}: ", line.number).into_bytes());
        message.extend(shown(&line.text));
        message.push(b'\n');
    }
    message
}
