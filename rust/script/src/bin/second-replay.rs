//! Reads one script on standard input, puts it to `second`, and writes the answers. At the end it
//! tells on standard error how many lines could not be read.

#![forbid(unsafe_code)]

use std::io::{self, BufWriter, Read, Write};

use script::{placed_calls, report, unread, Second, Session};

fn main() -> io::Result<()> {
    let mut script = Vec::new();
    io::stdin().read_to_end(&mut script)?;
    let script = String::from_utf8_lossy(&script);
    let mut subject: Second = Second::default();
    let mut session = Session::new(&mut subject);
    let mut answers = BufWriter::new(io::stdout().lock());
    let mut not_read = Vec::new();
    for call in placed_calls(&script) {
        if let Some(answer) = session.answer(&call.text) {
            writeln!(answers, "{answer}")?;
        }
        not_read.extend(unread(&call));
    }
    answers.flush()?;
    io::stderr().write_all(&report(&not_read).unwrap_or_default())
}
