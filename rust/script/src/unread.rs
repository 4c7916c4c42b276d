//! The lines of a script that cannot be read, and how they are told.

use crate::call::{batch, frame, Call};
use crate::calls::PlacedCall;
use crate::lines::is_silent;

/// So many bytes of a line are shown.
const SHOWN: usize = 200;

/// A line that cannot be read.
#[derive(Clone, Debug, PartialEq, Eq)]
pub struct UnreadLine {
    /// Its number in the script, from 1.
    pub number: usize,
    /// The line.
    pub text: String,
}

/// The lines for which a call is answered `unknown`: those that cannot be read, or the first of a
/// batch that is cut short with all its lines read.
pub fn unread(call: &PlacedCall) -> Vec<UnreadLine> {
    if is_silent(&call.text) || Call::read(&call.text).is_some() {
        return Vec::new();
    }
    let mut lines = call.lines().map(|(number, text)| UnreadLine {
        number,
        text: text.to_string(),
    });
    let own = lines.next();
    let frames: Vec<UnreadLine> = lines.filter(|line| frame(&line.text).is_none()).collect();
    let own = own.filter(|line| frames.is_empty() || batch(&line.text).is_none());
    own.into_iter().chain(frames).collect()
}

/// What a program that answers a script tells of it at its end, if there are lines to tell of.
pub fn report(lines: &[UnreadLine]) -> Option<Vec<u8>> {
    let first = lines.first()?;
    let number = first.number;
    let words = match lines.len() {
        1 => format!("replay: 1 line was not read; it is line {number}: "),
        count => format!("replay: {count} lines were not read; the first is line {number}: "),
    };
    let mut report = words.into_bytes();
    report.extend(shown(&first.text));
    report.push(b'\n');
    Some(report)
}

/// The first bytes of a line, fit to be shown. They may end within a letter of several bytes.
pub fn shown(text: &str) -> Vec<u8> {
    let bytes = text.bytes().take(SHOWN);
    let plain = |byte: u8| if byte.is_ascii_control() { b'?' } else { byte };
    let mut shown: Vec<u8> = bytes.map(plain).collect();
    if text.len() > SHOWN {
        shown.extend(b" ..");
    }
    shown
}

#[cfg(test)]
mod tests {
    use super::*;
    use crate::calls::placed_calls;

    fn unread_of(script: &str) -> Vec<UnreadLine> {
        let calls = placed_calls(script);
        calls.flat_map(|call| unread(&call)).collect()
    }

    fn numbers(script: &str) -> Vec<usize> {
        unread_of(script).iter().map(|line| line.number).collect()
    }

    fn report_of(script: &str) -> String {
        let report = report(&unread_of(script)).expect("a report");
        String::from_utf8(report).expect("text")
    }

    #[test]
    fn lines_by_themselves() {
        let script = "create 0\n# appendd\n\nappendd 1\n \nabort\nframe 1 0 0 1 1\nabort\r\r\n";
        assert_eq!(numbers(script), [4, 5, 7, 8]);
    }

    #[test]
    fn lines_of_a_batch() {
        let good = "frame 1 0 0 1 1";
        let bad = "frame 1 0 0 1";
        let of = |lines: &[&str]| numbers(&lines.join("\n"));
        assert_eq!(of(&["batch 2", good, "", good]), []);
        assert_eq!(of(&["batch 3", bad, "# a", good, bad]), [2, 5]);
        assert_eq!(of(&["batch 1 fates=x", good]), [1]);
        assert_eq!(of(&["batch 2 fates=x", good, bad]), [1, 3]);
        assert_eq!(of(&["batch x", good, bad]), [1, 2, 3]);
    }

    #[test]
    fn a_batch_that_is_cut_short() {
        let good = "frame 1 0 0 1 1";
        let of = |lines: &[&str]| numbers(&lines.join("\n"));
        assert_eq!(of(&["batch 2", good, "abort"]), [1]);
        assert_eq!(of(&["batch 2", good]), [1]);
        assert_eq!(of(&["batch 3", good, "frame", "aborted"]), [3, 4]);
        assert_eq!(of(&["batch 3 fate=1", good]), [1]);
    }

    #[test]
    fn how_many_and_the_first() {
        let one = "replay: 1 line was not read; it is line 2: appendd 1\n";
        assert_eq!(report_of("abort\nappendd 1\r\n"), one);
        let two = "replay: 2 lines were not read; the first is line 1: a?b?c\n";
        assert_eq!(report_of("a\tb\u{7f}c\nabort\n!"), two);
        assert_eq!(report(&[]), None);
    }

    #[test]
    fn the_first_bytes_of_a_long_line() {
        let whole = "x".repeat(SHOWN);
        assert_eq!(shown(&whole), whole.as_bytes());
        assert_eq!(
            shown(&format!("{whole}x")),
            format!("{whole} ..").as_bytes()
        );
    }
}
