//! Batches whose rows hold numbers that no script can: a row is six numbers of 64 bits, and a frame
//! as offered has less room. They are put to two implementations at once, on fresh buffers.

use std::ops::Range;

use script::{row_of, Batch, Place, Subject};
use second::{
    create, Fate, Offered, Row, State, BATCH_LINES, LONGEST_DURATION, OFFERED_LIMIT, TRACK_PLACES,
};

use crate::answers::Answers;
use crate::parting::{Failure, Parting};
use crate::rng::Rng;
use crate::singles::Singles;

/// A line that no batch writes.
const MARK: Fate = [u32::MAX; 2];

/// Numbers that a track, a duration or a flag mostly cannot be. Many look like one once they are cut
/// to 32 bits, 16 or 8.
const WILD: [i64; 14] = [
    -1,
    0,
    2,
    5,
    256,
    257,
    1 << 16,
    (1 << 32) - 1,
    1 << 32,
    (1 << 32) + 1,
    (1 << 32) + 100,
    1 - (1 << 32),
    i64::MIN,
    i64::MAX,
];

/// A list of rows, and the kinds of the buffer that they are put to.
#[derive(Clone, Debug)]
struct Case {
    kinds: Vec<u32>,
    rows: Vec<Row>,
}

/// A few frames that follow each other on some tracks, with some numbers that are wild.
fn make(rng: &mut Rng) -> Case {
    let tracks = rng.between(1, TRACK_PLACES as i64);
    let kinds = (0..tracks).map(|_| rng.pick(&[0, 1])).collect();
    let mut rows = Vec::new();
    for place in 0..rng.between(1, 8) {
        let mut row = row_of(&Offered {
            track: rng.between(1, tracks) as u32,
            pts: 100 * place,
            dts: 100 * place,
            duration: 100,
            flagged: rng.percent(70),
        });
        row[5] = rng.next() as i64;
        if rng.percent(20) {
            for _ in 0..rng.pick(&[1, 1, 2, 3]) {
                row[rng.between(0, 5) as usize] = rng.pick(&WILD);
            }
        }
        rows.push(row);
    }
    Case { kinds, rows }
}

/// The frame that a row offers, or its refusal: 3 for a track that the buffer has not, 4 for any
/// other number outside its limit. A row's numbers are judged as they are.
fn offered(row: &Row, tracks: usize) -> Result<Offered, u32> {
    let [track, pts, dts, duration, flag, _] = *row;
    if !(1..=tracks as i64).contains(&track) {
        return Err(3);
    }
    let within = [pts, dts]
        .iter()
        .all(|time| time.abs_diff(0) <= OFFERED_LIMIT.abs_diff(0))
        && (1..=i64::from(LONGEST_DURATION)).contains(&duration)
        && [0, 1].contains(&flag);
    match within {
        true => Ok(Offered {
            track: track as u32,
            pts,
            dts,
            duration: duration as u32,
            flagged: flag == 1,
        }),
        false => Err(4),
    }
}

/// What a batch answers, with its whole list and the state as they are afterwards.
#[derive(Clone, Debug, PartialEq, Eq)]
struct Outcome {
    result: Result<Batch, u32>,
    fates: Vec<Fate>,
    state: State,
}

impl Outcome {
    fn of<S: Subject>(subject: &mut S, case: &Case) -> Result<Self, u32> {
        let mut state = subject.create(&case.kinds)?;
        let rows: Vec<S::Row> = case.rows.iter().map(|row| Place::of(*row)).collect();
        let mut fates = vec![S::Fate::of(MARK); BATCH_LINES];
        let result = subject.append_batch(&mut state, &rows, &mut fates);
        Ok(Self {
            result,
            fates: fates.into_iter().map(Place::numbers).collect(),
            state: subject.view(&state),
        })
    }

    /// The outcome by single appends.
    fn due(case: &Case) -> Result<Self, u32> {
        let state = create(&case.kinds).map_err(second::Refusal::number)?;
        let offered: Vec<Result<Offered, u32>> = case
            .rows
            .iter()
            .map(|row| offered(row, case.kinds.len()))
            .collect();
        let frames: Vec<Offered> = offered.iter().map_while(|frame| frame.ok()).collect();
        let mut singles = Singles::of(state, &frames);
        if singles.batch.stop.is_none() {
            singles.batch.stop = offered.iter().find_map(|frame| frame.err());
        }
        singles.fates.resize(BATCH_LINES, MARK);
        Ok(Self {
            result: Ok(singles.batch),
            fates: singles.fates,
            state: singles.state,
        })
    }

    /// What is told of it where two differ.
    fn words(outcome: &Result<Self, u32>) -> String {
        match outcome {
            Ok(Self {
                result,
                fates,
                state,
            }) => {
                let lines: Vec<&Fate> = fates.iter().filter(|line| **line != MARK).collect();
                format!("{result:?}, lines {lines:?}, {}", script::state_line(state))
            }
            Err(refusal) => format!("no buffer: {refusal}"),
        }
    }
}

/// Puts the lists of some seeds to two implementations; tells where one of them does not what
/// single appends do.
pub(crate) fn compare_rows<A: Subject, B: Subject>(
    seeds: Range<u64>,
    one: &mut A,
    other: &mut B,
    answers: &mut Answers,
) -> Result<(), Failure> {
    for seed in seeds {
        let case = make(&mut Rng::new(seed));
        let due = Outcome::due(&case);
        for said in [Outcome::of(one, &case), Outcome::of(other, &case)] {
            if said != due {
                let parting = parting(&case, &said, &due);
                return Err(Failure::of_call(seed, parting));
            }
        }
        answers.rows += 1;
    }
    Ok(())
}

fn parting(case: &Case, said: &Result<Outcome, u32>, due: &Result<Outcome, u32>) -> Box<Parting> {
    Box::new(Parting {
        number: 1,
        call: format!("{case:?}"),
        one: Outcome::words(said),
        other: format!("one by one: {}", Outcome::words(due)),
    })
}
