//! Compares two implementations of the frame buffer over generated scripts, segments, lists of frames
//! and segments cut into lumps.
//!
//! `differential [SCRIPTS [SEED [SEGMENTS [ROWS [CUTTINGS]]]]]`; without words, as many as a minute and
//! a half allows with time to spare. Each of the segments has three damaged ones beside it, ROWS are
//! the lists that no script can hold, and of the CUTTINGS several are of one segment.

#![forbid(unsafe_code)]

use std::env;
use std::process::ExitCode;
use std::time::Instant;

use differential::{run, Coverage, Plan};
use script::{Proved, Second};

const SCRIPTS: u64 = 10_000;

const SEGMENTS: u64 = 250_000;

const ROWS: u64 = 100_000;

const CUTTINGS: u64 = 150_000;

fn main() -> ExitCode {
    let mut words = env::args().skip(1).map(|word| word.parse::<u64>());
    let (Ok(scripts), Ok(seed), Ok(segments), Ok(rows), Ok(cuttings)) = (
        words.next().unwrap_or(Ok(SCRIPTS)),
        words.next().unwrap_or(Ok(0)),
        words.next().unwrap_or(Ok(SEGMENTS)),
        words.next().unwrap_or(Ok(ROWS)),
        words.next().unwrap_or(Ok(CUTTINGS)),
    ) else {
        eprintln!("usage: differential [SCRIPTS [SEED [SEGMENTS [ROWS [CUTTINGS]]]]]");
        return ExitCode::FAILURE;
    };
    let plan = Plan {
        seed,
        scripts,
        segments,
        rows,
        cuttings,
    };

    let mut one: Second<Coverage> = Second::default();
    let mut other = Proved;
    let start = Instant::now();
    let answers = match run(plan, &mut one, &mut other) {
        Ok(answers) => answers,
        Err(failure) => {
            println!("{failure}");
            return ExitCode::FAILURE;
        }
    };

    println!("{}\n{}", answers.tables(), one.trace.tables());
    println!(
        "{} scripts, {} answers, {} states, {} accounts, {} segments, {} lists of rows and {} cuttings \
         compared in {:.1} s, {} pokes declined",
        answers.scripts,
        answers.answers,
        answers.states,
        answers.accounts,
        answers.segments,
        answers.rows,
        answers.cuttings,
        start.elapsed().as_secs_f64(),
        answers.declined
    );
    let gaps = [answers.gaps(), one.trace.gaps()].concat();
    for gap in &gaps {
        println!("gap: {gap}");
    }
    match gaps.is_empty() {
        true => ExitCode::SUCCESS,
        false => ExitCode::FAILURE,
    }
}
