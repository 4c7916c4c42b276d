//! Reading a script: every call with its lines, or the lines that cannot be read.

use script::{placed_calls, unread, Call, PlacedCall, UnreadLine};

/// A call that was read.
#[derive(Clone, Debug)]
pub struct ReadCall {
    /// The number of its line in the script, from 1.
    pub line: usize,
    /// Its line.
    pub text: String,
    /// The lines of a batch's frames, with their numbers.
    pub frames: Vec<(usize, String)>,
    /// The call.
    pub call: Call,
}

/// The calls of a script in order, or every line that cannot be read.
pub fn read(script: &str) -> Result<Vec<ReadCall>, Vec<UnreadLine>> {
    let calls: Vec<PlacedCall> = placed_calls(script).collect();
    let bad: Vec<UnreadLine> = calls.iter().flat_map(unread).collect();
    match bad.is_empty() {
        true => Ok(calls.iter().filter_map(read_call).collect()),
        false => Err(bad),
    }
}

/// A call, unless it is a blank line or a comment.
fn read_call(call: &PlacedCall) -> Option<ReadCall> {
    let mut lines = call.lines().map(|(line, text)| (line, text.to_string()));
    let (line, text) = lines.next()?;
    Some(ReadCall {
        line,
        text,
        frames: lines.collect(),
        call: Call::read(&call.text)?,
    })
}

#[cfg(test)]
mod tests {
    use super::*;

    #[test]
    fn calls_with_their_lines() {
        let calls = read("# a\ncreate 0\n\nbatch 1\n# b\nframe 1 0 0 1 1\nabort\n").unwrap();
        let lines: Vec<usize> = calls.iter().map(|call| call.line).collect();
        assert_eq!(lines, [2, 4, 7]);
        assert_eq!(calls[1].frames, [(6, "frame 1 0 0 1 1".to_string())]);
    }

    #[test]
    fn every_line_that_cannot_be_read() {
        let bad = read("create 0\nappendd 1\nbatch 1\nframe 1 x\nbatch 1\nabort").unwrap_err();
        let lines: Vec<usize> = bad.iter().map(|line| line.number).collect();
        assert_eq!(lines, [2, 4, 5]);
    }
}
