//! The lines of a script.

/// Some editors begin a text with it (the bytes EF BB BF).
const BYTE_ORDER_MARK: char = '\u{feff}';

/// A line has no more bytes than this, or it cannot be read.
pub(crate) const LONGEST_LINE: usize = 131_327;

/// The lines of a script. A byte order mark at its start is passed over, and so is a carriage return
/// at the end of a line: of several the last.
pub fn lines(script: &str) -> impl Iterator<Item = &str> {
    let script = script.strip_prefix(BYTE_ORDER_MARK).unwrap_or(script);
    let lines = script.split('\n');
    lines.map(|line| line.strip_suffix('\r').unwrap_or(line))
}

/// Whether a line has no answer: it is blank, or a comment.
pub(crate) fn is_silent(line: &str) -> bool {
    line.is_empty() || line.starts_with('#')
}

#[cfg(test)]
mod tests {
    use super::*;

    fn all(script: &str) -> Vec<&str> {
        lines(script).collect()
    }

    #[test]
    fn a_carriage_return_at_the_end_is_passed_over() {
        assert_eq!(all("abort\r\n\r\nstate\r"), ["abort", "", "state"]);
        assert_eq!(all("abort\r\r\na\rb\n"), ["abort\r", "a\rb", ""]);
    }

    #[test]
    fn a_byte_order_mark_at_the_start_is_passed_over() {
        assert_eq!(
            all("\u{feff}abort\n\u{feff}abort"),
            ["abort", "\u{feff}abort"]
        );
        assert_eq!(all("\u{feff}\u{feff}abort"), ["\u{feff}abort"]);
        assert_eq!(all("\u{feff}\r\n# a"), ["", "# a"]);
    }

    #[test]
    fn what_has_no_answer() {
        assert!(lines("\r\n# a\r\n#").all(is_silent));
        assert!(!lines(" \n #\n\r\r").any(is_silent));
    }
}
