//! The words for times, causes, refusals and faults.

use galumper::{Cause, Refusal};

use crate::balance::Fault;
use crate::book::FateLine;
use crate::kept::Outcome;
use crate::places::{Place, Vanished};
use crate::run::{NotDone, Why};

const MICROS: u64 = 1_000_000;

/// Microseconds as seconds with six digits.
pub fn seconds(micros: i64) -> String {
    let sign = if micros < 0 { "-" } else { "" };
    let size = micros.unsigned_abs();
    format!("{sign}{}.{:06}", size / MICROS, size % MICROS)
}

/// A count of things.
pub fn counted(count: usize, thing: &str) -> String {
    match count {
        1 => format!("1 {thing}"),
        _ => format!("{count} {thing}s"),
    }
}

/// What became of a frame.
pub fn outcome(outcome: &Outcome) -> String {
    match outcome {
        Outcome::Held => "held".to_string(),
        Outcome::Lost(fate) => lost(fate),
        Outcome::Missing => "neither stored nor on a fate line".to_string(),
    }
}

fn lost(fate: &FateLine) -> String {
    let verb = match fate.cause {
        Cause::BEFORE_WINDOW | Cause::AFTER_WINDOW | Cause::NEEDS_POINT => "dropped",
        _ => "removed",
    };
    format!("{verb} at line {}: {}", fate.line, fate.cause)
}

/// What had become of a frame that vanished.
pub fn vanished(row: &Vanished) -> String {
    match (row.outcome, row.undone) {
        (Outcome::Held, _) => "held until then".to_string(),
        (other, true) => format!("{} (undone)", outcome(&other)),
        (other, false) => outcome(&other),
    }
}

/// A refusal by its number.
pub fn refusal(number: u32) -> String {
    let known = Refusal::ALL.iter().find(|known| known.number() == number);
    match known {
        Some(refusal) => format!("refused {number}: {refusal}"),
        None => format!("refused {number}"),
    }
}

/// Why a call did nothing.
pub fn why(not_done: &NotDone) -> String {
    let words = match not_done.why {
        Why::Refused(number) => refusal(number),
        Why::Stopped(number, batch) => {
            format!("{}; it stopped the batch of line {batch}", refusal(number))
        }
        Why::NotTried(batch) => format!("not tried: the batch of line {batch} had stopped"),
        Why::NoBuffer => format!("not made: slot {} has no buffer", not_done.slot),
        Why::NothingSaved => "not made: no state was saved".to_string(),
        Why::Declined => "declined: the state cannot hold that number".to_string(),
    };
    match not_done.frames {
        0 => words,
        frames => format!("{words}; {} not tried", counted(frames, "frame")),
    }
}

/// What is wrong with a number.
pub fn fault(fault: &Fault) -> String {
    match fault {
        Fault::Misnumbered(place, number) => {
            format!("The frame offered as number {place} has the number {number}.")
        }
        Fault::Found(number, 0) => {
            format!("Frame {number} is neither stored nor on a fate line.")
        }
        Fault::Found(number, times) => {
            format!("Frame {number} is found {times} times, on stored frames or fate lines.")
        }
        Fault::NotOffered(number) => {
            format!("Frame {number} is stored or on a fate line, and was not offered.")
        }
        Fault::OtherTrack(number, track) => {
            format!("Frame {number} is stored on track {track}, and was offered on another.")
        }
        Fault::OtherTime(number, pts) => {
            let at = seconds(*pts);
            format!("Frame {number} is stored at {at}, and was placed at another time.")
        }
    }
}

/// The name of a place.
pub fn place(place: Place) -> String {
    match place {
        Place::Slot(slot) => format!("slot {slot}"),
        Place::Saved => "the saved state".to_string(),
    }
}

#[cfg(test)]
mod tests {
    use super::*;

    #[test]
    fn seconds_with_six_digits() {
        assert_eq!(seconds(0), "0.000000");
        assert_eq!(seconds(1_040_000), "1.040000");
        assert_eq!(seconds(-1), "-0.000001");
        assert_eq!(seconds(i64::MIN), "-9223372036854.775808");
    }

    #[test]
    fn every_refusal_has_words() {
        for known in Refusal::ALL {
            let words = refusal(known.number());
            assert_eq!(words, format!("refused {}: {known}", *known as u32));
        }
        assert_eq!(refusal(99), "refused 99");
    }
}
