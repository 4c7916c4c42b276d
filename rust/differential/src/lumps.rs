//! Generated segments, cut into lumps and put to two implementations at once. Each is held to its own
//! answer on the whole segment, and to the place where refusal 14 is due; and one to the other.

mod cutter;
pub(crate) mod cutting;
mod link;
mod top;

use script::Subject;

use crate::answers::Answers;
use crate::parting::{Failure, Parting};
use crate::rng::Rng;
use crate::segments::case::Case;
use crate::segments::{compare, for_lumps};
use cutter::cut;
use cutting::{Cutting, Way};
use link::{Link, Words};
use top::Top;

/// Segments up to this length are cut byte by byte, and at every place.
const SHORT: usize = 600;

/// So many of a hundred of these are cut at every place.
const AT_EVERY_PLACE: i64 = 4;

/// How often a segment is cut anywhere.
const ANYWHERE: usize = 4;

/// Cuts one segment a seed, in several ways, until there are so many cuttings; puts them to two
/// implementations, and tells where one does not what is due, or they part.
pub(crate) fn compare_cuttings<A: Subject, B: Subject>(
    first_seed: u64,
    cuttings: u64,
    one: &mut A,
    other: &mut B,
    answers: &mut Answers,
) -> Result<(), Failure> {
    let mut links = (Link::new(), Link::new());
    for seed in first_seed.. {
        if answers.cuttings >= cuttings {
            break;
        }
        let mut rng = Rng::new(seed);
        let case = for_lumps(&mut rng);
        let top = Top::of(&case.bytes);
        let whole = compare(&case, one, other).map_err(|part| Failure::of_call(seed, part))?;
        for way in ways(&mut rng, case.bytes.len()) {
            let cutting = cut(&mut rng, &case, &top, whole, way);
            let ones = links.0.play(one, &case, &cutting);
            let ones = ones.map_err(|wrong| failure(seed, &case, &cutting, wrong))?;
            let others = links.1.play(other, &case, &cutting);
            let others = others.map_err(|wrong| failure(seed, &case, &cutting, wrong))?;
            if ones != others {
                let words = [format!("{ones:?}"), format!("{others:?}")];
                let all = cutting.steps.len();
                return Err(failure(seed, &case, &cutting, (all, words)));
            }
            answers.cutting(&cutting, &ones.results);
        }
    }
    answers.damaged_readers(links.0.damaged);
    Ok(())
}

/// The ways in which a segment of some length is cut.
fn ways(rng: &mut Rng, length: usize) -> Vec<Way> {
    let mut ways = vec![Way::Anywhere; ANYWHERE];
    if length <= SHORT {
        ways.push(Way::Bytes);
        if rng.percent(AT_EVERY_PLACE) {
            ways.extend((0..=length).map(Way::Two));
        }
    }
    ways
}

/// The calls up to the one that is not as is due.
fn failure(seed: u64, case: &Case, cutting: &Cutting, (number, words): (usize, Words)) -> Failure {
    let steps = cutting.steps.iter().take(number);
    let script: Vec<String> = steps.map(|step| step.line(case)).collect();
    let [one, due] = words;
    let parting = Box::new(Parting {
        number,
        call: script.last().cloned().unwrap_or_default(),
        one,
        other: format!("due: {due}"),
    });
    Failure {
        seed,
        script,
        parting,
    }
}
