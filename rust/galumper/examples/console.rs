//! The normal loop of a console: the frames of a survey line are appended, and when the store is
//! full the oldest seconds go.

use std::collections::BTreeMap;

use galumper::{held, Cause, Fate, Kind, Offered, Range, Refusal, FATES, RANGES};

/// How many frames are gone by each cause, and the first of them.
#[derive(Default)]
struct Gone(BTreeMap<Cause, (usize, u32)>);

impl Gone {
    /// Books the fate lines of a call.
    fn book(&mut self, lines: &[Fate]) {
        for fate in lines {
            let (count, _) = self.0.entry(fate.cause).or_insert((0, fate.number));
            *count += 1;
        }
    }
}

/// The n-th frame of the line: 25 a second, the first of each second a random access point.
fn frame(n: i64) -> Offered {
    Offered {
        track: 1,
        flagged: n % 25 == 0,
        duration: 40_000,
        pts: 40_000 * n,
        dts: 40_000 * n,
    }
}

fn main() -> Result<(), Refusal> {
    let mut buffer = galumper::create(&[Kind::VIDEO])?;
    let mut fates = [Fate::default(); FATES];
    let mut ranges = [Range::default(); RANGES];
    let mut gone = Gone::default();
    let mut oldest = 0; // the seconds before this one are gone

    // The camera is switched on in the middle of a second, and for another it sends nothing.
    for n in 10..2000 {
        if n / 25 == 60 {
            continue;
        }
        let lines = match buffer.append(frame(n), &mut fates) {
            Err(full @ Refusal::Full) => {
                oldest += 10;
                let removed = buffer.remove(0.0, oldest.into(), &mut fates)?;
                gone.book(&fates[..removed]);
                let instant = frame(n).pts;
                println!("{instant}: {full}, {removed} frames before second {oldest} go");
                buffer.append(frame(n), &mut fates)? // the same frame again
            }
            answer => answer?,
        };
        gone.book(&fates[..lines]);
    }

    for (cause, (count, first)) in &gone.0 {
        println!("{count} frames, from number {first}: {cause}");
    }
    let count = buffer.track_ranges(1, &mut ranges)?;
    for range in &ranges[..count] {
        println!("held from {} to {}", range.start, range.end);
    }
    let instant = 60_500_000;
    let is = match held(&ranges[..count], instant) {
        true => "held",
        false => "not held",
    };
    println!("{instant} is {is}");
    Ok(())
}
