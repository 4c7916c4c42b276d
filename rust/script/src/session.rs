//! A session: two slots for buffers, one saved state, one reader of lumps, and the lists that are lent.

use second::{Feed, Reading, Start, WindowEnd};

use crate::batch::{row_of, Batch};
use crate::call::Call;
use crate::lent::{touched, Lent};
use crate::lines::is_silent;
use crate::lump::{Lump, LumpBuffer};
use crate::place::Place;
use crate::print::{bits, digits, state_line};
use crate::subject::{Declined, Subject};

/// Numbers that no call writes, neither in fate lines nor in ranges nor for a listed frame.
const FATE_MARK: [u32; 2] = [0xdead_beef, 0xfeed_f00d];
const STRETCH_MARK: [i64; 2] = [i64::MAX, i64::MIN];
const ROW_MARK: [i64; 6] = [i64::MAX, i64::MIN, i64::MAX, i64::MIN, i64::MAX, i64::MIN];

/// A session with an implementation.
pub struct Session<'a, S: Subject> {
    subject: &'a mut S,
    slots: [Option<S::State>; 2],
    in_use: usize,
    saved: Option<S::State>,
    fates: Lent<S::Fate>,
    ranges: Lent<S::Stretch>,
    rows: Lent<S::Row>,
    reader: S::Reader,
    lumps: LumpBuffer,
}

impl<'a, S: Subject> Session<'a, S> {
    /// A session at its start.
    pub fn new(subject: &'a mut S) -> Self {
        Self {
            subject,
            slots: [None, None],
            in_use: 0,
            saved: None,
            fates: Lent::new(Place::of(FATE_MARK)),
            ranges: Lent::new(Place::of(STRETCH_MARK)),
            rows: Lent::new(Place::of(ROW_MARK)),
            reader: S::Reader::default(),
            lumps: LumpBuffer::default(),
        }
    }

    /// The answer to a call, as [`calls`](crate::calls) has it; none to a blank line and a comment.
    pub fn answer(&mut self, call: &str) -> Option<String> {
        if is_silent(call) {
            return None;
        }
        let answer = match Call::read(call) {
            Some(call) => self.carry_out(call).unwrap_or_else(|| "none".to_string()),
            None => "unknown".to_string(),
        };
        Some(answer)
    }

    /// The state in the slot in use.
    pub fn state(&self) -> Option<&S::State> {
        self.slots[self.in_use].as_ref()
    }

    /// Puts a state into the slot in use.
    pub fn set_state(&mut self, state: S::State) {
        self.slots[self.in_use] = Some(state);
    }

    /// The state in the slot in use, as its subject shows it.
    pub fn view(&self) -> Option<second::State> {
        self.state().map(|state| self.subject.view(state))
    }

    /// Whether the subject takes the state in the slot in use for a well-formed one.
    pub fn is_well_formed(&mut self) -> bool {
        let state = self.slots[self.in_use].as_ref();
        state.is_some_and(|state| self.subject.read_settings(state).is_ok())
    }

    /// Makes a call; nothing if it needs a state and there is none.
    fn carry_out(&mut self, call: Call) -> Option<String> {
        let subject = &mut *self.subject;
        let slot = &mut self.slots[self.in_use];
        Some(match call {
            Call::Create(kinds) => done(subject.create(&kinds).map(|state| *slot = Some(state))),
            Call::Append(offered, length) => {
                let result = subject.append(slot.as_mut()?, &offered, self.fates.lend(length));
                self.fates.answer(result, "ok fates", fate)
            }
            Call::Batch(frames, length) => {
                let rows: Vec<S::Row> = frames.iter().map(|f| Place::of(row_of(f))).collect();
                let result = subject.append_batch(slot.as_mut()?, &rows, self.fates.lend(length));
                let words = result.map_or(String::new(), |batch| batch_words(&batch));
                let lines = result.map(|batch| batch.lines);
                self.fates.answer(lines, &words, fate)
            }
            Call::Remove(start, end, length) => {
                let result = subject.remove(slot.as_mut()?, start, end, self.fates.lend(length));
                self.fates.answer(result, "ok fates", fate)
            }
            Call::Abort => done(subject.abort(slot.as_mut()?)),
            Call::Mode(mode) => done(subject.set_mode(slot.as_mut()?, mode)),
            Call::Offset(time) => done(subject.set_offset(slot.as_mut()?, time)),
            Call::WindowStart(time) => done(subject.set_window_start(slot.as_mut()?, time)),
            Call::WindowEnd(time) => done(subject.set_window_end(slot.as_mut()?, time)),
            Call::Settings => settings(subject.read_settings(slot.as_ref()?)),
            Call::Ranges(track, length) => {
                let list = self.ranges.lend(length);
                let result = subject.track_ranges(slot.as_ref()?, track, list);
                self.ranges.answer(result, "ok ranges", stretch)
            }
            Call::Common(length) => {
                let result = subject.common_ranges(slot.as_ref()?, self.ranges.lend(length));
                self.ranges.answer(result, "ok ranges", stretch)
            }
            Call::Walked(track, places) => taken(subject.walked(slot.as_ref()?, track, places)),
            Call::Seek(track, instant) => sought(subject.seek(slot.as_ref()?, track, instant)),
            Call::Segment(of, segment, length) => {
                let result = subject.list_segment(of, &segment, self.rows.lend(length));
                self.rows.answer(result, "ok samples", row)
            }
            Call::Lump(lump) => self.take_lump(&lump),
            Call::LumpFresh => {
                self.reader = S::Reader::default();
                done(Ok(()))
            }
            Call::Feed(feed, initialization, segment) => {
                let part = subject.feed(&initialization, &segment, feed);
                match feed {
                    Feed::Initialization => fed(part, &initialization),
                    Feed::Part { .. } => fed(part, &segment),
                }
            }
            Call::State => state_line(&subject.view(slot.as_ref()?)),
            Call::Buffer(number) => {
                self.in_use = number;
                done(Ok(()))
            }
            Call::Save => {
                self.saved = Some(slot.clone()?);
                done(Ok(()))
            }
            Call::Restore => {
                *slot = Some(self.saved.clone()?);
                done(Ok(()))
            }
            Call::Poke(poke) => match subject.poke(slot.as_mut()?, &poke) {
                Ok(()) => done(Ok(())),
                Err(Declined) => "declined".to_string(),
            },
        })
    }

    /// The answer to a lump. Before the end none is listed: a count that is not 0 would show.
    fn take_lump(&mut self, lump: &Lump) -> String {
        let before = self.reader.clone();
        let result = self.subject.take_lump(
            &mut self.reader,
            lump.of,
            self.lumps.lend(lump.buffer),
            &lump.bytes,
            lump.last,
            self.rows.lend(lump.places),
        );
        let words = if lump.last { "ok samples" } else { "ok" };
        let answer = self.rows.answer(result, words, row);
        let moved = result.is_err() && self.reader != before;
        match moved || self.lumps.is_touched(result.is_err()) {
            true => touched(answer),
            false => answer,
        }
    }
}

fn done(result: Result<(), u32>) -> String {
    match result {
        Ok(()) => "ok".to_string(),
        Err(refusal) => format!("refused {refusal}"),
    }
}

fn taken(result: Result<usize, u32>) -> String {
    match result {
        Ok(frames) => format!("ok taken {frames}"),
        Err(refusal) => done(Err(refusal)),
    }
}

fn sought(result: Result<Start, u32>) -> String {
    match result {
        Ok(start) => format!("ok seek {} {} {}", start.target, start.flagged, start.count),
        Err(refusal) => done(Err(refusal)),
    }
}

/// What is fed of some bytes. Bytes that do not lie among these are a copy, which no right answer is.
fn fed(part: &[u8], of: &[u8]) -> String {
    let (within, lent) = (part.as_ptr_range(), of.as_ptr_range());
    let copied = within.start < lent.start || lent.end < within.end;
    let word = if copied { " copied" } else { "" };
    format!("ok feed {}{word}", digits(part))
}

fn settings(result: Result<Reading, u32>) -> String {
    match result {
        Ok(reading) => format!(
            "ok settings {} {} {}",
            bits(reading.offset),
            bits(reading.window_start),
            match reading.window_end {
                WindowEnd::Unbounded => "unbounded".to_string(),
                WindowEnd::Seconds(end) => bits(end),
            }
        ),
        Err(refusal) => done(Err(refusal)),
    }
}

/// What stands before the fate lines of a batch.
fn batch_words(batch: &Batch) -> String {
    let (accepted, stop) = (batch.accepted, batch.stop.unwrap_or(0));
    format!("ok batch {accepted} {stop} fates")
}

fn fate(line: &impl Place<u32, 2>) -> String {
    let [number, cause] = line.numbers();
    format!("({number},{cause})")
}

fn stretch(stretch: &impl Place<i64, 2>) -> String {
    let [start, end] = stretch.numbers();
    format!("[{start},{end})")
}

fn row(row: &impl Place<i64, 6>) -> String {
    let [track, pts, dts, duration, flag, size] = row.numbers();
    format!("({track},{pts},{dts},{duration},{flag},{size})")
}

#[cfg(test)]
mod tests {
    use super::*;
    use crate::calls::calls;
    use crate::lines::lines;
    use crate::proved::Proved;
    use crate::subject::Second;

    fn answers(script: &str) -> Vec<String> {
        answers_of(&mut Second::<()>::default(), script)
    }

    fn answers_of<S: Subject>(subject: &mut S, script: &str) -> Vec<String> {
        let mut session = Session::new(subject);
        let calls = calls(lines(script));
        calls.filter_map(|call| session.answer(&call)).collect()
    }

    #[test]
    fn calls_without_a_state() {
        let script = "abort\nsave\nrestore\npoke group-end 0\nstate\ncreate 2\nstate";
        let wanted = ["none", "none", "none", "none", "none", "refused 11", "none"];
        assert_eq!(answers(script), wanted);
    }

    /// A movie fragment with one track fragment of track 1: a header, a decode time of 5 and a run of
    /// one sample.
    fn segment() -> String {
        let digits = "000000446d6f6f66 0000003c74726166 0000001074666864 0000000000000001 \
                      0000001074666474 0000000000000005 000000147472756e 0000000000000001 00000000";
        digits.replace(' ', "")
    }

    #[test]
    fn a_segment_needs_no_state() {
        let segment = segment();
        let call = format!("segment 1 2 1000 40 9 0 {segment}");
        let script = format!(
            "{call}\n{call} places=0\nsegment 1 2 0 40 9 0 {segment}\nsegment 1 2 1000 40 9 0 -"
        );
        let wanted = [
            "ok samples (2,5000,5000,40000,1,9)",
            "refused 10",
            "refused 4",
            "refused 12",
        ];
        assert_eq!(answers(&script), wanted);
        assert_eq!(answers_of(&mut Proved, &script), wanted);
    }

    #[test]
    fn lumps_need_no_state() {
        let segment = segment();
        let (first, second) = segment.split_at(50);
        let (more, last) = ("lump more 1 2 1000 40 9 0", "lump last 1 2 1000 40 9 0");
        let calls = [
            format!("{more} {first}"),
            format!("{more} -"),
            format!("{more} {second} buffer=65535"),
            format!("{more} {}", "00".repeat(65_537)),
            format!("{last} {second} places=0"),
            format!("lump last 1 2 0 40 9 0 {second}"),
            format!("{last} -"),
            format!("{more} {second} buffer=131072"),
            format!("{more} 000100016d6f6f66"),
            format!("{last} 00"),
            format!("{last} - places=1"),
            format!("{last} -"),
            format!("{more} {first}"),
            "lump-fresh".to_string(),
            format!("{last} {segment}"),
        ];
        let listed = "ok samples (2,5000,5000,40000,1,9)";
        let wanted = [
            "ok",
            "ok",
            "refused 13",
            "refused 13",
            "refused 10",
            "refused 4",
            "refused 12",
            "ok",
            "refused 14",
            "refused 12",
            listed,
            "refused 12",
            "ok",
            "ok",
            listed,
        ];
        let script = calls.join("\n");
        assert_eq!(answers(&script), wanted);
        assert_eq!(answers_of(&mut Proved, &script), wanted);
    }

    #[test]
    fn slots_and_the_saved_state() {
        let script = "create 0\nmode sequence\nsave\nbuffer 2\nsettings\nrestore\nstate";
        let state = "ok state tracks=0 last=0 group=0 mode=sequence group-start=0 group-end=0 \
                     offset=0/0x0000000000000000 window-start=0/0x0000000000000000 \
                     window-end=unbounded track1=unset,unset,unset,need frames=0";
        assert_eq!(
            answers(script),
            ["ok", "ok", "ok", "ok", "none", "ok", state]
        );
    }

    #[test]
    fn batches() {
        let script = "batch 0\ncreate 0\n\nbatch 2\n# a comment\nframe 1 0 0 1 0\n\n\
                      frame 1 1 1 1 1\nbatch 3\nframe 1 2 2 1 0\nframe 1 3 3 0 0\n\
                      frame 1 3 3 1 0\nbatch 0\nbatch 0 fates=1087";
        let wanted = [
            "none",
            "ok",
            "ok batch 2 0 fates (1,3)",
            "ok batch 1 4 fates",
            "ok batch 0 0 fates",
            "refused 2",
        ];
        assert_eq!(answers(script), wanted);
        assert_eq!(answers_of(&mut Proved, script), wanted);
    }

    #[test]
    fn a_batch_of_65() {
        let script = format!("create 0\nbatch 65{}", "\nframe 1 0 0 1 1".repeat(65));
        assert_eq!(answers(&script), ["ok", "refused 13"]);
    }

    #[test]
    fn batches_that_cannot_be_read() {
        let script = "create 0\nbatch 2\nframe 1 0 0 1 1\nabort\nbatch 1\nframe 1 0 0 1 2\n\
                      batch 1 fate=0\nframe 1 0 0 1 1\nframe 1 0 0 1 1\nbatch 1 fates=9";
        let wanted = [
            "ok", "unknown", "ok", "unknown", "unknown", "unknown", "unknown",
        ];
        assert_eq!(answers(script), wanted);
    }

    #[test]
    fn marks_of_an_editor() {
        let script = "\u{feff}create 0\r\n\r\nbatch 1\r\n\r\nframe 1 0 0 1 1\r\nabort\r\r\n\
                      batch 1\nframe 1 0 0 1 1\r\r\nabort\r";
        let wanted = ["ok", "ok batch 1 0 fates", "unknown", "unknown", "ok"];
        assert_eq!(answers(script), wanted);
    }

    #[test]
    fn how_far_a_report_comes() {
        let script = "walked 1\ncreate 0 1\nwalked 1 places=0\nappend 1 0 0 100 1\n\
                      append 1 300 100 100 0\nappend 1 100 200 100 0\nappend 1 500 300 100 0\n\
                      walked 1\nwalked 1 places=1\nranges 1 places=1\nwalked 1 places=0\n\
                      walked 2\nwalked 3 places=0\npoke tracks 5\nwalked 3 places=0";
        let wanted = [
            "none",
            "ok",
            "ok taken 0",
            "ok fates",
            "ok fates",
            "ok fates",
            "ok fates",
            "ok taken 4",
            "ok taken 3",
            "refused 10",
            "ok taken 1",
            "ok taken 0",
            "refused 3",
            "ok",
            "refused 1",
        ];
        assert_eq!(answers(script), wanted);
        assert_eq!(answers_of(&mut Proved, script), wanted);
    }

    #[test]
    fn where_to_start_decoding() {
        // Store order 1, 3, 2, 4, of which 3 and 4 are of the group after the abort.
        let script = "seek 1 0\ncreate 0 1\nseek 1 0\nappend 1 0 0 100 1\nappend 1 500 150 100 0\n\
                      abort\nappend 1 100 50 100 1\nappend 1 200 200 100 0\n\
                      seek 1 99\nseek 1 599\nseek 1 250\nseek 1 300\nseek 1 -1\nseek 2 0\nseek 3 0\n\
                      seek 1 9223372036854775807\npoke frame 1 flag 0\nseek 1 500\nseek 1 150\n\
                      poke tracks 5\nseek 6 0";
        let wanted = [
            "none",
            "ok",
            "refused 15",
            "ok fates",
            "ok fates",
            "ok",
            "ok fates",
            "ok fates",
            "ok seek 1 1 1",
            "ok seek 2 1 2",
            "ok seek 4 3 2",
            "refused 15",
            "refused 15",
            "refused 15",
            "refused 3",
            "refused 15",
            "ok",
            "refused 15",
            "ok seek 3 3 1",
            "ok",
            "refused 1",
        ];
        assert_eq!(answers(script), wanted);
        assert_eq!(answers_of(&mut Proved, script), wanted);
    }

    #[test]
    fn what_to_feed_needs_no_state() {
        let script = "feed init 0 0 00ff1a -\nfeed init 9 1 - 00\nfeed segment 0 3 - 00ff1a\n\
                      feed segment 1 2 99 00ff1a\nfeed segment 3 3 99 00ff1a\nfeed segment 0 4 99 00ff1a\n\
                      feed segment 2 4 99 00ff1a\nfeed segment 2 1 99 00ff1a\n\
                      feed segment 0 18446744073709551615 - 00\n\
                      feed segment 18446744073709551615 18446744073709551615 99 -\nfeed segment 0 0 - -";
        let wanted = [
            "ok feed 00ff1a",
            "ok feed -",
            "ok feed 00ff1a",
            "ok feed ff",
            "ok feed -",
            "ok feed -",
            "ok feed -",
            "ok feed -",
            "ok feed -",
            "ok feed -",
            "ok feed -",
        ];
        assert_eq!(answers(script), wanted);
        assert_eq!(answers_of(&mut Proved, script), wanted);
    }

    #[test]
    fn a_copy_is_told() {
        let lent = [0x00, 0xff, 0x1a];
        for (start, end) in [(0, 3), (1, 2), (0, 0), (3, 3)] {
            let told = digits(&lent[start..end]);
            assert_eq!(fed(&lent[start..end], &lent), format!("ok feed {told}"));
        }
        let copy = lent;
        assert_eq!(fed(&copy, &lent), "ok feed 00ff1a copied");
        assert_eq!(fed(&[], &lent), "ok feed - copied");
        assert_eq!(fed(&lent, &lent[1..]), "ok feed 00ff1a copied");
        assert_eq!(fed(&lent, &lent[..2]), "ok feed 00ff1a copied");
    }

    #[test]
    fn groups() {
        let script = "poke group 1\ncreate 0\npoke group 4294967294\nabort\n\
                      append 1 0 0 100 1\nabort\nstate\npoke frame 1 group 7\nstate\n\
                      poke group 6\nabort\npoke group 4294967296\npoke frame 1 group -1";
        let state = |group: u32| {
            format!(
                "ok state tracks=0 last=1 group=4294967295 mode=segments group-start=unset \
                 group-end=100 offset=0/0x0000000000000000 window-start=0/0x0000000000000000 \
                 window-end=unbounded track1=0,100,100,clear frames=1 (1,1,0,0,100,1,{group})"
            )
        };
        let [stored, poked] = [u32::MAX, 7].map(state);
        let wanted = [
            "none",
            "ok",
            "ok",
            "ok",
            "ok fates",
            "refused 9",
            &stored,
            "ok",
            &poked,
            "ok",
            "refused 1",
            "declined",
            "declined",
        ];
        assert_eq!(answers(script), wanted);
        assert_eq!(answers_of(&mut Proved, script), wanted);
    }

    #[test]
    fn calls_that_are_not_built() {
        assert_eq!(answers("room 1 0\ncompare"), ["unknown", "unknown"]);
    }

    #[test]
    fn a_poke_that_no_state_can_hold() {
        let script = "create 0\npoke last-number 4294967296\npoke frames 1025\nabort";
        assert_eq!(answers(script), ["ok", "declined", "ok", "refused 1"]);
    }

    #[test]
    fn a_poke_that_only_one_state_can_hold() {
        let script = "create 0\nappend 1 0 0 100 1\npoke frame 1 flag 2\nabort";
        let [second, proved] = [answers(script), answers_of(&mut Proved, script)];
        assert_eq!(second, ["ok", "ok fates", "declined", "ok"]);
        assert_eq!(proved, ["ok", "ok fates", "ok", "refused 1"]);
    }
}
