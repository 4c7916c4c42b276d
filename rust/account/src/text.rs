//! The whole account as text.

use galumper::Range;

use crate::balance::{Balance, Counts};
use crate::book::{Book, Offering};
use crate::kept::{Holding, Kept};
use crate::places::{Replaced, Saved};
use crate::run::{NotDone, Run};
use crate::table::{table, Side};
use crate::words;

const PREFACE: &str = "\
Times and lengths are in seconds; a line is a line of the script. Presentation and decode times are as offered;
a frame is placed at its presentation time with the timestamp offset added.
";

/// So many letters of a call are shown.
const SHOWN: usize = 48;

/// The account of a script that has a name.
pub fn text(name: &str, run: &Run) -> String {
    let mut text = format!("Account of {name}\n{PREFACE}");
    text += &poke_note(run);
    text += &slots(run);
    text += &saved(run.places.only_saved());
    for replaced in &run.places.replaced {
        text += &put_out(replaced);
    }
    text += &not_done(&run.not_done);
    text += match run.balances() {
        true => "\nThe balance holds.\n",
        false => "\nThe balance does not hold.\n",
    };
    text
}

fn slots(run: &Run) -> String {
    let slots = run.places.in_slots();
    let parts: String = slots
        .map(|(slot, kept)| part(&format!("Slot {slot}"), kept))
        .collect();
    match parts.is_empty() {
        true => "\nNo slot has a buffer at the end.\n".to_string(),
        false => parts,
    }
}

fn poke_note(run: &Run) -> String {
    let Some((line, slot)) = run.first_poke else {
        return String::new();
    };
    format!(
        "Line {line} is the first poke, of slot {slot}. A poked state is not one that calls led to, \
         and its balance may fail.\n"
    )
}

/// A buffer: its frames, what it holds, and its balance.
fn part(place: &str, kept: &Kept) -> String {
    let holdings = kept.holdings();
    let mut text = format!("\n{place}: {}\n", origin(&kept.book));
    text += &frames(kept);
    for holding in &holdings {
        text += &held(holding);
    }
    text + "\n" + &balance(&kept.balance())
}

/// Where a buffer comes from.
fn origin(book: &Book) -> String {
    let mut words = format!("the buffer created at line {}", book.created);
    if let Some(line) = book.restored {
        words += &format!(", restored at line {line}");
    }
    if let Some(line) = book.poked {
        words += &format!(", poked at line {line}");
    }
    words
}

fn saved(saved: Option<&Saved>) -> String {
    let Some(saved) = saved else {
        return String::new();
    };
    let place = format!(
        "The state saved at line {} from slot {}",
        saved.line, saved.slot
    );
    part(&place, &saved.kept)
}

fn frames(kept: &Kept) -> String {
    let outcomes = kept.outcomes();
    if outcomes.is_empty() {
        return "\n  No frame was offered and accepted.\n".to_string();
    }
    let rows: Vec<[String; 9]> = outcomes
        .iter()
        .map(|(offering, outcome)| frame(offering, words::outcome(outcome)))
        .collect();
    format!(
        "\n  Frames offered and accepted\n{}",
        table(frame_heads("what became of it"), &rows)
    )
}

fn frame_heads(outcome: &str) -> [(&str, Side); 9] {
    [
        ("frame", Side::Right),
        ("line", Side::Right),
        ("track", Side::Right),
        ("presentation", Side::Right),
        ("decode", Side::Right),
        ("duration", Side::Right),
        ("random access", Side::Left),
        ("placed at", Side::Right),
        (outcome, Side::Left),
    ]
}

fn frame(offering: &Offering, outcome: String) -> [String; 9] {
    let frame = &offering.frame;
    let flag = if frame.flagged { "yes" } else { "no" };
    [
        offering.number.to_string(),
        offering.line.to_string(),
        frame.track.to_string(),
        words::seconds(frame.pts),
        words::seconds(frame.dts),
        words::seconds(i64::from(frame.duration)),
        flag.to_string(),
        words::seconds(offering.placed),
        outcome,
    ]
}

/// The ranges of a track, and the holes between them.
fn held(holding: &Holding) -> String {
    let title = format!(
        "\n  Held at the end on track {} ({})",
        holding.track, holding.kind
    );
    match &holding.ranges {
        Err(refusal) => format!("{title}: not reported, {refusal}\n"),
        Ok(ranges) if ranges.is_empty() => format!("{title}: nothing\n"),
        Ok(ranges) => {
            let heads = [
                ("from", Side::Right),
                ("to", Side::Right),
                ("length", Side::Right),
                ("", Side::Left),
            ];
            format!("{title}\n{}", table(heads, &stretches(ranges)))
        }
    }
}

fn stretches(ranges: &[Range]) -> Vec<[String; 4]> {
    let mut rows = Vec::new();
    let mut last_end = None;
    for range in ranges {
        if let Some(end) = last_end {
            rows.push(stretch(end, range.start, "hole"));
        }
        rows.push(stretch(range.start, range.end, "held"));
        last_end = Some(range.end);
    }
    rows
}

fn stretch(start: i64, end: i64, word: &str) -> [String; 4] {
    let times = [start, end, end - start].map(words::seconds);
    let [start, end, length] = times;
    [start, end, length, word.to_string()]
}

fn balance(balance: &Balance) -> String {
    let heads = [
        ("track", Side::Right),
        ("offered", Side::Right),
        ("stored", Side::Right),
        ("dropped", Side::Right),
        ("removed", Side::Right),
        ("", Side::Left),
    ];
    let rows: Vec<[String; 6]> = balance
        .tracks
        .iter()
        .map(|(track, counts)| counted(*track, counts))
        .collect();
    format!("  Balance\n{}{}", table(heads, &rows), numbers(balance))
}

fn counted(track: u32, counts: &Counts) -> [String; 6] {
    let Counts {
        offered,
        stored,
        dropped,
        removed,
    } = counts;
    let sign = if counts.balances() { "=" } else { "is not" };
    [
        track.to_string(),
        offered.to_string(),
        stored.to_string(),
        dropped.to_string(),
        removed.to_string(),
        format!("{offered} {sign} {stored} + {dropped} + {removed}"),
    ]
}

/// What the balance says of the numbers.
fn numbers(balance: &Balance) -> String {
    let offered: usize = balance.tracks.values().map(|counts| counts.offered).sum();
    if !balance.faults.is_empty() {
        let faults = balance.faults.iter().map(words::fault);
        return faults.map(|words| format!("  {words}\n")).collect();
    }
    match offered {
        0 => "  No number was given.\n".to_string(),
        1 => "  Number 1 is found exactly once, on a stored frame or a fate line.\n".to_string(),
        last => format!(
            "  Each number from 1 to {last} is found exactly once, on a stored frame or a fate line.\n"
        ),
    }
}

/// What is told of a buffer that was replaced.
fn put_out(replaced: &Replaced) -> String {
    let Replaced { call, line, .. } = replaced;
    let place = words::place(replaced.place);
    let rows: Vec<[String; 9]> = replaced
        .vanished
        .iter()
        .map(|row| frame(&row.offering, words::vanished(row)))
        .collect();
    let frames = match rows.is_empty() {
        true => String::new(),
        false => table(frame_heads("what had become of it"), &rows),
    };
    let balance = match replaced.balance.holds() {
        true => "  The balance held until then.\n".to_string(),
        false => format!(
            "  The balance did not hold.\n{}",
            balance(&replaced.balance)
        ),
    };
    format!("\nPut out of {place} by the {call} at line {line}\n{frames}{balance}")
}

fn not_done(calls: &[NotDone]) -> String {
    if calls.is_empty() {
        return String::new();
    }
    let heads = [
        ("line", Side::Right),
        ("slot", Side::Right),
        ("call", Side::Left),
        ("why", Side::Left),
    ];
    let rows: Vec<[String; 4]> = calls
        .iter()
        .map(|call| {
            [
                call.line.to_string(),
                call.slot.to_string(),
                shortened(&call.text),
                words::why(call),
            ]
        })
        .collect();
    format!(
        "\nCalls that were refused or not made\n{}",
        table(heads, &rows)
    )
}

fn shortened(call: &str) -> String {
    let start: String = call.chars().take(SHOWN).collect();
    match start.len() < call.len() {
        true => start + " ..",
        false => start,
    }
}

#[cfg(test)]
mod tests {
    use super::*;
    use crate::reading::read;

    fn account(script: &str) -> String {
        text("a script", &Run::of(&read(script).expect("a script")))
    }

    /// The part of an account after its first lines.
    fn told(script: &str) -> String {
        let text = account(script);
        let start = format!("Account of a script\n{PREFACE}");
        text.strip_prefix(&start).expect("the first lines").into()
    }

    #[test]
    fn no_buffer() {
        let wanted = "
No slot has a buffer at the end.

Calls that were refused or not made
  line  slot  call    why
     1     1  create  refused 11: no track, more than four, or an unknown kind

The balance holds.
";
        assert_eq!(told("create"), wanted);
    }

    #[test]
    fn a_hole_and_what_a_restore_took() {
        let script = "create 1\nappend 1 0 0 100 1\nappend 1 200 200 100 1\nsave\n\
                      append 1 300 300 100 1\nremove 0.0002 0.00025\nrestore";
        let wanted = "
Slot 1: the buffer created at line 1, restored at line 7

  Frames offered and accepted
  frame  line  track  presentation    decode  duration  random access  placed at  what became of it
      1     2      1      0.000000  0.000000  0.000100  yes             0.000000  held
      2     3      1      0.000200  0.000200  0.000100  yes             0.000200  held

  Held at the end on track 1 (audio)
      from        to    length
  0.000000  0.000100  0.000100  held
  0.000100  0.000200  0.000100  hole
  0.000200  0.000300  0.000100  held

  Balance
  track  offered  stored  dropped  removed
      1        2       2        0        0  2 = 2 + 0 + 0
  Each number from 1 to 2 is found exactly once, on a stored frame or a fate line.

Put out of slot 1 by the restore at line 7
  frame  line  track  presentation    decode  duration  random access  placed at  what had become of it
      2     3      1      0.000200  0.000200  0.000100  yes             0.000200  removed at line 6: begins in a removed stretch (undone)
      3     5      1      0.000300  0.000300  0.000100  yes             0.000300  held until then
  The balance held until then.

The balance holds.
";
        assert_eq!(told(script), wanted);
    }

    #[test]
    fn a_state_that_is_not_well_formed() {
        let text = told("create 0\nappend 1 0 0 100 1\npoke frames 0\nabort");
        for line in [
            "Line 3 is the first poke, of slot 1. A poked state is not one that calls led to, \
             and its balance may fail.",
            "      1     2      1      0.000000  0.000000  0.000100  yes             0.000000  \
             neither stored nor on a fate line",
            "  Held at the end on track 1 (video): not reported, the buffer or lump reader is not well-formed",
            "      1        1       0        0        0  1 is not 0 + 0 + 0",
            "  Frame 1 is neither stored nor on a fate line.",
            "     4     1  abort  refused 1: the buffer or lump reader is not well-formed",
            "The balance does not hold.",
        ] {
            assert!(text.lines().any(|told| told == line), "{line}\n{text}");
        }
    }

    #[test]
    fn a_spoilt_state_that_was_replaced() {
        let text = told("create 0\nappend 1 0 0 100 1\nsave\npoke frame 1 p 7\nrestore");
        let wanted = "
Put out of slot 1 by the restore at line 5
  The balance did not hold.
  Balance
  track  offered  stored  dropped  removed
      1        1       1        0        0  1 = 1 + 0 + 0
  Frame 1 is stored at 0.000007, and was placed at another time.

The balance does not hold.
";
        assert!(text.ends_with(wanted), "{text}");
    }

    #[test]
    fn a_long_call_is_shortened() {
        let text = told(&format!("segment 1 1 1 1 1 1 {}", "0".repeat(100)));
        let wanted = format!("segment 1 1 1 1 1 1 {} ..  refused 12", "0".repeat(28));
        assert!(text.contains(&wanted), "{text}");
    }
}
