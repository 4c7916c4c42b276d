//! An implementation that is put lumps: its reader, and what it is lent, watched from call to call.

use std::iter;

use script::{Place, Subject};
use second::{Row, LUMP_BYTES};

use super::cutting::{Cutting, Due, Step};
use crate::segments::case::Case;
use crate::segments::outcome::{Outcome, MARK};

/// Bytes that are there past those of a buffer that may be written to.
const PAST: [u8; 64] = [0xa5; 64];

/// What is said, and what is due.
pub(super) type Words = [String; 2];

/// What the calls of a cutting were answered.
#[derive(Clone, Debug, Default, PartialEq, Eq)]
pub(super) struct Played {
    /// Each call but those with damaged readers.
    pub(super) results: Vec<Result<usize, u32>>,
    /// The ends, with what they wrote.
    pub(super) ends: Vec<Outcome>,
}

/// A reader of some implementation, with the buffer and the list that it is lent.
pub(super) struct Link<S: Subject> {
    reader: S::Reader,
    buffer: Vec<u8>,
    /// What the buffer held before a call that must leave it alone.
    before: Vec<u8>,
    list: Vec<S::Row>,
    /// How many calls with damaged readers were refused 1.
    pub(super) damaged: u64,
}

impl<S: Subject> Link<S> {
    /// With a buffer that holds anything.
    pub(super) fn new() -> Self {
        let buffer = [&[0x5a; LUMP_BYTES][..], &PAST].concat();
        Self {
            reader: S::Reader::default(),
            before: buffer.clone(),
            buffer,
            list: Vec::new(),
            damaged: 0,
        }
    }

    /// Makes the calls of a cutting with a fresh reader, and a buffer as the last one left it; tells the
    /// first call that is not as is due, by its place from 1.
    pub(super) fn play(
        &mut self,
        subject: &mut S,
        case: &Case,
        cutting: &Cutting,
    ) -> Result<Played, (usize, Words)> {
        self.reader = S::Reader::default();
        let mut played = Played::default();
        for (number, step) in (1..).zip(&cutting.steps) {
            let made = match step.due {
                Due::Taken => self.call(subject, case, step, Ok(0), &[]),
                Due::Refused(refusal) => self.call(subject, case, step, Err(refusal), &[]),
                Due::Whole(end) => {
                    let due = Outcome::of(subject, step.of, &case.bytes[..end], step.places);
                    let made = self.end(subject, case, step, &due);
                    played.ends.push(due);
                    made
                }
                Due::IllFormed => self.damaged(subject, case, step),
            };
            made.map_err(|words| (number, words))?;
            played.results.extend(step.due.result(played.ends.last()));
        }
        Ok(played)
    }

    /// Makes a call and holds it to what is due: its answer; the list, which has these rows and no other;
    /// reader and buffer, which a refusal and a lump of no bytes leave as they were.
    fn call(
        &mut self,
        subject: &mut S,
        case: &Case,
        step: &Step,
        due: Result<usize, u32>,
        rows: &[Row],
    ) -> Result<(), Words> {
        let lump = step.bytes(case);
        let still = due.is_err() || lump.is_empty() && !step.last;
        let reader = self.reader.clone();
        if still {
            self.before.copy_from_slice(&self.buffer);
        }
        self.list.clear();
        self.list.resize(step.places, S::Row::of(MARK));
        let (buffer, list) = (&mut self.buffer[..step.buffer], &mut self.list);
        let said = subject.take_lump(&mut self.reader, step.of, buffer, lump, step.last, list);
        if said != due || !self.has_listed(rows) {
            let list: Vec<Row> = self.list.iter().map(|row| row.numbers()).collect();
            return Err([shown(said, &list), shown(due, rows)]);
        }
        if still && self.reader != reader {
            return Err([format!("{:?}", self.reader), format!("{reader:?}")]);
        }
        if still && self.buffer != self.before {
            return Err(["the buffer is written to", "as it was"].map(str::to_string));
        }
        match self.buffer[LUMP_BYTES..] == PAST {
            true => Ok(()),
            false => Err(["65,537 bytes or more are written", "65,536"].map(str::to_string)),
        }
    }

    fn has_listed(&self, rows: &[Row]) -> bool {
        let due = rows.iter().copied().chain(iter::repeat(MARK));
        let list = self.list.iter().map(|row| row.numbers());
        list.eq(due.take(self.list.len()))
    }

    /// The end: a listing leaves the reader fresh.
    fn end(
        &mut self,
        subject: &mut S,
        case: &Case,
        step: &Step,
        due: &Outcome,
    ) -> Result<(), Words> {
        self.call(subject, case, step, due.result, &due.list)?;
        match due.result.is_err() || self.reader == S::Reader::default() {
            true => Ok(()),
            false => Err([format!("{:?}", self.reader), "a fresh reader".to_string()]),
        }
    }

    /// Readers that no call hands out are refused 1, whatever else is wrong, and nothing changes.
    fn damaged(&mut self, subject: &mut S, case: &Case, step: &Step) -> Result<(), Words> {
        self.before.copy_from_slice(&self.buffer);
        for damaged in subject.damaged_readers(&self.reader) {
            for (last, bytes) in [(false, step.buffer), (true, step.buffer), (true, 0)] {
                let mut reader = damaged.clone();
                let (buffer, lump) = (&mut self.buffer[..bytes], step.bytes(case));
                let said = subject.take_lump(&mut reader, step.of, buffer, lump, last, &mut []);
                if said != Err(1) || reader != damaged || self.buffer != self.before {
                    let said = format!("{damaged:?}: {said:?}, then {reader:?}");
                    return Err([said, "refused 1, as it was".to_string()]);
                }
                self.damaged += 1;
            }
        }
        Ok(())
    }
}

/// An answer, and the rows that were written.
fn shown(result: Result<usize, u32>, rows: &[Row]) -> String {
    let rows: Vec<&Row> = rows.iter().filter(|row| **row != MARK).collect();
    format!("{result:?}, rows {rows:?}")
}
