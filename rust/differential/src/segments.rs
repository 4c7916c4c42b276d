//! Generated segments, well-made and damaged, put to two implementations at once.

pub(crate) mod case;
mod damage;
mod enlarge;
mod make;
pub(crate) mod outcome;
mod tree;
mod values;

use script::Subject;

use crate::answers::Answers;
use crate::parting::{Failure, Parting};
use crate::rng::Rng;
use case::Case;
use outcome::Outcome;

/// The damaged segments that are made of each well-made one.
const DAMAGED: u64 = 3;

/// Refusal 12, which no well-made segment is given.
const MALFORMED: u32 = 12;

/// A well-made segment, or one damaged.
pub(crate) fn any(rng: &mut Rng) -> Case {
    let (case, nodes) = make::make(rng);
    match rng.percent(50) {
        true => case,
        false => damage::damage(rng, &case, &nodes),
    }
}

/// A segment to be cut: well-made or damaged, often with boxes that are larger than a lump.
pub(crate) fn for_lumps(rng: &mut Rng) -> Case {
    let (mut case, mut nodes) = make::make(rng);
    if rng.percent(40) {
        enlarge::enlarge(rng, &mut nodes);
        case.bytes = tree::bytes(&nodes);
    }
    match rng.percent(60) {
        true => case,
        false => damage::damage(rng, &case, &nodes),
    }
}

/// Puts the segments of some seeds to two implementations; tells where they part first. A seed has
/// one well-made segment and a few damaged ones.
pub(crate) fn compare_segments<A: Subject, B: Subject>(
    seeds: std::ops::Range<u64>,
    one: &mut A,
    other: &mut B,
    answers: &mut Answers,
) -> Result<(), Failure> {
    for seed in seeds {
        let mut rng = Rng::new(seed);
        let (case, nodes) = make::make(&mut rng);
        let part = |parting| Failure::of_call(seed, parting);
        let whole = compare(&case, one, other).map_err(part)?;
        answers.segment(whole);
        if whole == Err(MALFORMED) {
            let words = "a well-made segment is refused 12".to_string();
            return Err(part(parting(&case, [words.clone(), words])));
        }
        for _ in 0..DAMAGED {
            let damaged = damage::damage(&mut rng, &case, &nodes);
            let torn = compare(&damaged, one, other).map_err(part)?;
            answers.segment(torn);
            answers.damage(whole, torn);
        }
    }
    Ok(())
}

/// The answer of both, or where they part.
pub(crate) fn compare<A: Subject, B: Subject>(
    case: &Case,
    one: &mut A,
    other: &mut B,
) -> Result<Result<usize, u32>, Box<Parting>> {
    let &Case {
        of,
        ref bytes,
        places,
    } = case;
    let [one, other] = [
        Outcome::of(one, of, bytes, places),
        Outcome::of(other, of, bytes, places),
    ];
    match one == other && one.is_tidy() {
        true => Ok(one.result),
        false => Err(parting(
            case,
            [one, other].map(|outcome| format!("{outcome:?}")),
        )),
    }
}

fn parting(case: &Case, [one, other]: [String; 2]) -> Box<Parting> {
    Box::new(Parting {
        number: 1,
        call: case.line(),
        one,
        other,
    })
}
