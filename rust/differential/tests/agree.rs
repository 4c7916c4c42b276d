//! The whole way of a run, with `second` on both sides, and a short one with the proved library.

use differential::{run, script, Coverage, Plan};
use script::{Proved, Second};

#[test]
fn second_agrees_with_itself_and_everything_is_reached() {
    let mut one: Second<Coverage> = Second::default();
    let mut other: Second = Second::default();
    let plan = Plan {
        seed: 0,
        scripts: 4_000,
        segments: 20_000,
        rows: 5_000,
        cuttings: 50_000,
    };
    let answers = run(plan, &mut one, &mut other).unwrap_or_else(|failure| panic!("{failure}"));
    let gaps = [answers.gaps(), one.trace.gaps()].concat();
    assert!(gaps.is_empty(), "{}", gaps.join("\n"));
}

#[test]
fn the_proved_library_agrees_with_second() {
    let plan = Plan {
        seed: 0,
        scripts: 500,
        segments: 5_000,
        rows: 5_000,
        cuttings: 10_000,
    };
    let answers = run(plan, &mut Second::<()>::default(), &mut Proved)
        .unwrap_or_else(|failure| panic!("{failure}"));
    assert_eq!(answers.declined, 0);
}

#[test]
fn a_seed_gives_one_script() {
    for seed in 0..100 {
        assert_eq!(script(seed), script(seed));
        assert_ne!(script(seed), script(seed + 100));
    }
}

#[test]
fn a_run_that_reaches_little_has_gaps() {
    let mut one: Second<Coverage> = Second::default();
    let mut other: Second = Second::default();
    let plan = Plan {
        seed: 0,
        scripts: 1,
        segments: 1,
        rows: 1,
        cuttings: 1,
    };
    let answers = run(plan, &mut one, &mut other).unwrap_or_else(|failure| panic!("{failure}"));
    assert!(!answers.gaps().is_empty());
    assert!(!one.trace.gaps().is_empty());
}
