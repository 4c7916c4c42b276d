//! The calls of a script. Each has a line, and a batch the lines of its frames besides.

use std::iter::{self, Peekable};

use crate::lines::{is_silent, lines, LONGEST_LINE};
use crate::words::whole;

/// A call with its places in the script.
#[derive(Clone, Debug, PartialEq, Eq)]
pub struct PlacedCall {
    /// Its lines joined: its own, and for a batch those of its frames.
    pub text: String,
    /// The number of each of these lines in the script, from 1.
    pub numbers: Vec<usize>,
}

impl PlacedCall {
    /// Its lines with their numbers.
    pub fn lines(&self) -> impl Iterator<Item = (usize, &str)> {
        self.numbers.iter().copied().zip(self.text.split('\n'))
    }
}

/// The calls of a script, line by line.
pub struct Calls<'s, L: Iterator<Item = &'s str>> {
    lines: Peekable<L>,
    /// How many lines were taken.
    taken: usize,
}

/// The calls of a script, each as its lines joined. Blank lines and comments are among them, except
/// those that stand between a batch and its frames.
pub fn calls<'s, L: Iterator<Item = &'s str>>(lines: L) -> Calls<'s, L> {
    let lines = lines.peekable();
    Calls { lines, taken: 0 }
}

/// The calls of a script with their places in it, blank lines and comments as in [`calls`].
pub fn placed_calls(script: &str) -> impl Iterator<Item = PlacedCall> + '_ {
    let mut calls = calls(lines(script));
    iter::from_fn(move || calls.placed())
}

impl<'s, L: Iterator<Item = &'s str>> Iterator for Calls<'s, L> {
    type Item = String;

    fn next(&mut self) -> Option<String> {
        self.placed().map(|call| call.text)
    }
}

impl<'s, L: Iterator<Item = &'s str>> Calls<'s, L> {
    /// The next call.
    fn placed(&mut self) -> Option<PlacedCall> {
        let mut text = self.line_if(|_| true)?.to_string();
        let mut numbers = vec![self.taken];
        for _ in 0..announced(&text) {
            let Some(frame) = self.frame() else {
                break; // a batch that is cut short, and cannot be read
            };
            text.push('\n');
            text.push_str(frame);
            numbers.push(self.taken);
        }
        Some(PlacedCall { text, numbers })
    }

    /// The next line, if it is that of a batch's frame.
    fn frame(&mut self) -> Option<&'s str> {
        while self.line_if(is_silent).is_some() {}
        self.line_if(|line| first_word(line) == "frame")
    }

    fn line_if(&mut self, holds: impl Fn(&str) -> bool) -> Option<&'s str> {
        let line = self.lines.next_if(|line| holds(line))?;
        self.taken += 1;
        Some(line)
    }
}

/// How many frames follow a line: none, unless it begins a batch and can be read as far as their
/// number.
fn announced(line: &str) -> usize {
    let mut words = line.split(' ');
    let count = match words.next() {
        Some("batch") if line.len() <= LONGEST_LINE => words.next(),
        _ => None,
    };
    count.and_then(whole).unwrap_or(0)
}

fn first_word(line: &str) -> &str {
    line.split(' ').next().unwrap_or_default()
}

#[cfg(test)]
mod tests {
    use super::*;

    #[test]
    fn a_batch_has_its_frames() {
        let script = "abort\nbatch 2\nframe a\n# between\n\nframe b\nframe c\n\nbatch 0\nabort";
        let wanted = [
            "abort",
            "batch 2\nframe a\nframe b",
            "frame c",
            "",
            "batch 0",
            "abort",
        ];
        assert_eq!(calls(script.lines()).collect::<Vec<_>>(), wanted);
    }

    #[test]
    fn a_batch_that_is_cut_short() {
        let script = "batch 3 fates=7\nframe a\nframed b\nbatch 9\nframe c";
        let wanted = ["batch 3 fates=7\nframe a", "framed b", "batch 9\nframe c"];
        assert_eq!(calls(script.lines()).collect::<Vec<_>>(), wanted);
    }

    #[test]
    fn a_batch_of_no_number() {
        let long = "x".repeat(LONGEST_LINE);
        let script =
            format!("batch\nframe a\nbatch x\nframe b\nbatch -1\nframe c\nbatch 1 {long}\nframe d");
        let lines: Vec<&str> = script.lines().collect();
        assert_eq!(calls(script.lines()).collect::<Vec<_>>(), lines);
    }
    #[test]
    fn the_numbers_of_lines() {
        let script = "abort\n\nbatch 2\n# between\nframe a\n\nframe b\n# after\nabort";
        let numbers: Vec<Vec<usize>> = placed_calls(script).map(|call| call.numbers).collect();
        assert_eq!(numbers, [vec![1], vec![2], vec![3, 5, 7], vec![8], vec![9]]);
    }

    #[test]
    fn a_batch_by_its_lines() {
        let call = placed_calls("# a\nbatch 1\n\nframe b").nth(1);
        let call = call.expect("a batch");
        let lines: Vec<(usize, &str)> = call.lines().collect();
        assert_eq!(lines, [(2, "batch 1"), (4, "frame b")]);
    }
}
