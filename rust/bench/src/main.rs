//! Times the calls of the proved library beside those of the second implementation.
//!
//! Prints the tables of `docs/PERFORMANCE.md`: the time of a call in microseconds, the median of
//! several rounds. The two take turns within a round, so that a busy moment hits both.
//!
//! `bench --reports` times the reports of long lines alone, `bench --groups` the walks by group,
//! `bench --lumps` the segments that come in lumps, `bench --seeks` the seeks.
//! `bench --write-segments FOLDER` times nothing and writes the segments that are timed into files.

#![forbid(unsafe_code)]

mod files;
mod grouping;
mod groups;
mod line;
mod lumps;
mod measure;
mod reports;
mod rounds;
mod seeks;
mod segment;
mod table;

use std::env;
use std::path::Path;
use std::process::ExitCode;

use measure::Runner;
use script::{Proved, Second};

fn main() -> ExitCode {
    let words: Vec<String> = env::args().skip(1).collect();
    let mut proved = Runner::new(Proved);
    let mut second = Runner::new(Second::<()>::default());
    match words.iter().map(String::as_str).collect::<Vec<_>>()[..] {
        [] => {
            println!("{}", table::report(&mut proved, &mut second));
            println!("{}", reports::report(&mut proved, &mut second));
            println!("{}", groups::report(&mut proved, &mut second));
            println!("{}", lumps::report(&mut proved, &mut second));
            print!("{}", seeks::report(&mut proved, &mut second));
            ExitCode::SUCCESS
        }
        ["--seeks"] => {
            print!("{}", seeks::report(&mut proved, &mut second));
            ExitCode::SUCCESS
        }
        ["--lumps"] => {
            print!("{}", lumps::report(&mut proved, &mut second));
            ExitCode::SUCCESS
        }
        ["--groups"] => {
            print!("{}", groups::report(&mut proved, &mut second));
            ExitCode::SUCCESS
        }
        ["--reports"] => {
            print!("{}", reports::report(&mut proved, &mut second));
            ExitCode::SUCCESS
        }
        ["--write-segments", folder] => match files::write(Path::new(folder), &table::SEGMENTS) {
            Ok(()) => ExitCode::SUCCESS,
            Err(error) => {
                eprintln!("{folder}: {error}");
                ExitCode::FAILURE
            }
        },
        _ => {
            eprintln!(
                "usage: bench [--reports | --groups | --lumps | --seeks | --write-segments FOLDER]"
            );
            ExitCode::FAILURE
        }
    }
}
