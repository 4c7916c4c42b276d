//! The calls of a script, made one by one on the proved library and booked.

use galumper::{Buffer, Fate, ListedFrame, Range, FATES};
use script::{row_of, Call, Place as _, Proved, Subject};
use second::Offered;

use crate::book::Offering;
use crate::kept::Kept;
use crate::lumps::Lumps;
use crate::places::Places;
use crate::reading::ReadCall;

/// Why a call, or a frame of a batch, did nothing.
#[derive(Clone, Copy, Debug, PartialEq, Eq)]
pub enum Why {
    /// It was refused, by a number.
    Refused(u32),
    /// A frame was refused, by a number, and stopped the batch at a line.
    Stopped(u32, usize),
    /// A frame came after the one that stopped the batch at a line.
    NotTried(usize),
    /// The slot has no buffer.
    NoBuffer,
    /// No state was saved.
    NothingSaved,
    /// A state cannot hold what a poke asks.
    Declined,
}

/// A call, or a frame of a batch, that did nothing.
#[derive(Clone, Debug, PartialEq, Eq)]
pub struct NotDone {
    /// Its line.
    pub line: usize,
    /// The slot in use.
    pub slot: usize,
    /// The line's text.
    pub text: String,
    /// How many frames a batch has.
    pub frames: usize,
    /// Why.
    pub why: Why,
}

/// What came of a script.
#[derive(Clone, Debug, Default)]
pub struct Run {
    pub(crate) places: Places,
    /// By rising line.
    pub(crate) not_done: Vec<NotDone>,
    /// The line of the first poke, and the slot.
    pub(crate) first_poke: Option<(usize, usize)>,
    lumps: Lumps,
}

impl Run {
    /// Makes the calls of a script.
    pub fn of(calls: &[ReadCall]) -> Self {
        let mut run = Self::default();
        for call in calls {
            if let Err(why) = run.make(call) {
                run.note(call.line, &call.text, call.frames.len(), why);
            }
        }
        run
    }

    /// Whether the balance holds wherever there are frames to account for.
    pub fn balances(&self) -> bool {
        let in_slots = self.places.in_slots().map(|(_, kept)| kept);
        let saved = self.places.only_saved().map(|saved| &saved.kept);
        let mut replaced = self.places.replaced.iter();
        in_slots.chain(saved).all(|kept| kept.balance().holds())
            && replaced.all(|replaced| replaced.balance.holds())
    }

    /// The line of the first poke, if there is one.
    pub fn poked(&self) -> Option<usize> {
        self.first_poke.map(|(line, _)| line)
    }

    fn note(&mut self, line: usize, text: &str, frames: usize, why: Why) {
        self.not_done.push(NotDone {
            line,
            slot: self.places.slot(),
            text: text.to_string(),
            frames,
            why,
        });
    }

    fn make(&mut self, call: &ReadCall) -> Result<(), Why> {
        match &call.call {
            Call::Create(kinds) => {
                let buffer = Proved.create(kinds).map_err(Why::Refused)?;
                self.places.create(buffer, call.line);
                Ok(())
            }
            Call::Buffer(index) => {
                self.places.take_in_use(*index);
                Ok(())
            }
            Call::Save => self.places.save(call.line).ok_or(Why::NoBuffer),
            Call::Restore => self.places.restore(call.line).ok_or(Why::NothingSaved),
            Call::Segment(of, segment, places) => {
                let mut list = vec![ListedFrame::default(); *places];
                let listed = Proved.list_segment(*of, segment, &mut list);
                listed.map(drop).map_err(Why::Refused)
            }
            Call::Lump(lump) => self.lumps.take(lump).map_err(Why::Refused),
            Call::LumpFresh => {
                self.lumps.begin_anew();
                Ok(())
            }
            Call::Feed(feed, initialization, segment) => {
                Proved.feed(initialization, segment, *feed);
                Ok(())
            }
            Call::Batch(frames, lines) => self.batch(call, frames, *lines),
            Call::Poke(poke) => {
                let kept = self.places.kept().ok_or(Why::NoBuffer)?;
                let poked = Proved.poke(&mut kept.buffer, poke);
                poked.map_err(|_| Why::Declined)?;
                kept.book.poked.get_or_insert(call.line);
                let slot = self.places.slot();
                self.first_poke.get_or_insert((call.line, slot));
                Ok(())
            }
            _ => {
                let kept = self.places.kept().ok_or(Why::NoBuffer)?;
                kept.make(call).map_err(Why::Refused)
            }
        }
    }

    /// A batch. Its frames from the one that stopped it on are noted, each with its own line.
    fn batch(&mut self, call: &ReadCall, frames: &[Offered], lines: usize) -> Result<(), Why> {
        let kept = self.places.kept().ok_or(Why::NoBuffer)?;
        let batched = kept.append_batch(call, frames, lines);
        let (accepted, stop) = batched.map_err(Why::Refused)?;
        let Some(stop) = stop else {
            return Ok(());
        };
        let mut why = Why::Stopped(stop, call.line);
        for (line, text) in &call.frames[accepted..] {
            self.note(*line, text, 0, why);
            why = Why::NotTried(call.line);
        }
        Ok(())
    }
}

impl Kept {
    /// Makes a call on the buffer and books it.
    fn make(&mut self, call: &ReadCall) -> Result<(), u32> {
        let buffer = &mut self.buffer;
        match call.call {
            Call::Append(frame, lines) => self.append(call.line, frame, lines),
            Call::Remove(start, end, lines) => {
                let mut fates = vec![Fate::default(); lines];
                let count = Proved.remove(buffer, start, end, &mut fates)?;
                self.book.lose(call.line, &fates[..count]);
                Ok(())
            }
            Call::Abort => Proved.abort(buffer),
            Call::Mode(mode) => Proved.set_mode(buffer, mode),
            Call::Offset(time) => Proved.set_offset(buffer, time),
            Call::WindowStart(time) => Proved.set_window_start(buffer, time),
            Call::WindowEnd(time) => Proved.set_window_end(buffer, time),
            Call::Settings => Proved.read_settings(buffer).map(drop),
            Call::Ranges(track, places) => {
                let mut list = vec![Range::default(); places];
                Proved.track_ranges(buffer, track, &mut list).map(drop)
            }
            Call::Common(places) => {
                let mut list = vec![Range::default(); places];
                Proved.common_ranges(buffer, &mut list).map(drop)
            }
            Call::Walked(track, places) => Proved.walked(buffer, track, places).map(drop),
            Call::Seek(track, instant) => Proved.seek(buffer, track, instant).map(drop),
            // The state is looked at; the others are not made on a buffer alone.
            _ => Ok(()),
        }
    }

    fn append(&mut self, line: usize, frame: Offered, lines: usize) -> Result<(), u32> {
        let mut fates = vec![Fate::default(); lines];
        let count = Proved.append(&mut self.buffer, &frame, &mut fates)?;
        self.book.offered.push(Offering {
            number: self.buffer.head.last,
            line,
            frame,
            placed: placed(&frame, &self.buffer),
        });
        self.book.lose(line, &fates[..count]);
        Ok(())
    }

    /// Gives how many frames were accepted, and the refusal that stopped the batch, if one did.
    fn append_batch(
        &mut self,
        call: &ReadCall,
        frames: &[Offered],
        lines: usize,
    ) -> Result<(usize, Option<u32>), u32> {
        let rows: Vec<ListedFrame> = frames
            .iter()
            .map(|frame| ListedFrame::of(row_of(frame)))
            .collect();
        let mut fates = vec![Fate::default(); lines];
        let mut before = self.buffer.clone();
        let batch = Proved.append_batch(&mut self.buffer, &rows, &mut fates)?;
        let accepted = call.frames.iter().zip(frames).take(batch.accepted);
        let offerings =
            accepted.map(|((line, _), frame)| offered_singly(&mut before, *line, frame));
        self.book.offered.extend(offerings);
        self.book.lose(call.line, &fates[..batch.lines]);
        Ok((batch.accepted, batch.stop))
    }
}

/// Where the frame that a buffer accepted last was placed: once added, the offset stays.
fn placed(frame: &Offered, buffer: &Buffer) -> i64 {
    frame.pts + buffer.head.settings.offset.micros
}

/// A frame of a batch, appended by itself to the buffer as it was before that frame. A batch is its
/// appends one by one, and these show the number and the offset of each.
fn offered_singly(buffer: &mut Box<Buffer>, line: usize, frame: &Offered) -> Offering {
    let mut fates = vec![Fate::default(); FATES];
    let appended = Proved.append(buffer, frame, &mut fates);
    appended.expect("a frame that the batch accepted");
    Offering {
        number: buffer.head.last,
        line,
        frame: *frame,
        placed: placed(frame, buffer),
    }
}

#[cfg(test)]
mod tests {
    use super::*;
    use crate::kept::Outcome;
    use crate::places::{Place, Replaced};
    use crate::reading::read;

    fn run(script: &str) -> Run {
        Run::of(&read(script).expect("a script that can be read"))
    }

    /// What became of the frames in a slot: number, line, and the line and cause of the fate line;
    /// zeros for a frame that is held.
    fn in_slot(run: &Run, slot: usize) -> Vec<(u32, usize, usize, u32)> {
        let (_, kept) = run
            .places
            .in_slots()
            .find(|(number, _)| *number == slot)
            .expect("a buffer in the slot");
        let outcomes = kept.outcomes().into_iter();
        outcomes
            .map(|(offering, outcome)| row(&offering, outcome))
            .collect()
    }

    fn row(offering: &Offering, outcome: Outcome) -> (u32, usize, usize, u32) {
        let (line, cause) = match outcome {
            Outcome::Held => (0, 0),
            Outcome::Lost(fate) => (fate.line, fate.cause.0),
            Outcome::Missing => panic!("frame {} is missing", offering.number),
        };
        (offering.number, offering.line, line, cause)
    }

    fn vanished(replaced: &Replaced) -> Vec<(u32, usize, usize, u32)> {
        let rows = replaced.vanished.iter();
        rows.map(|row| self::row(&row.offering, row.outcome))
            .collect()
    }

    fn reasons(run: &Run) -> Vec<(usize, Why)> {
        run.not_done
            .iter()
            .map(|call| (call.line, call.why))
            .collect()
    }

    #[test]
    fn frames_dropped_and_removed() {
        let run = run("create 0\nappend 1 0 0 100 0\nappend 1 0 0 100 1\n\
                       append 1 100 100 100 0\nabort\nappend 1 0 0 100 1\nremove 0 inf");
        let wanted = [(1, 2, 2, 3), (2, 3, 6, 4), (3, 4, 6, 5), (4, 6, 7, 6)];
        assert_eq!(in_slot(&run, 1), wanted);
        assert!(run.balances());
    }

    #[test]
    fn a_restore_takes_back_what_came_after_the_save() {
        let run = run(
            "create 0\nappend 1 0 0 100 1\nsave\nappend 1 100 100 100 0\n\
                       remove 0 0.0001\nrestore\nappend 1 100 100 100 0",
        );
        assert_eq!(in_slot(&run, 1), [(1, 2, 0, 0), (2, 7, 0, 0)]);
        let [replaced] = &run.places.replaced[..] else {
            panic!("{:?}", run.places.replaced);
        };
        let how = (replaced.place, replaced.call, replaced.line);
        assert_eq!(how, (Place::Slot(1), "restore", 6));
        assert_eq!(vanished(replaced), [(1, 2, 5, 6), (2, 4, 5, 6)]);
        let undone: Vec<bool> = replaced.vanished.iter().map(|row| row.undone).collect();
        assert_eq!(undone, [true, false]);
        assert!(run.balances());
    }

    #[test]
    fn a_restore_of_what_is_there_takes_nothing() {
        let run = run("create 0\nappend 1 0 0 100 1\nsave\nrestore\nbuffer 2\nrestore");
        assert_eq!(in_slot(&run, 1), [(1, 2, 0, 0)]);
        assert_eq!(in_slot(&run, 2), [(1, 2, 0, 0)]);
        assert!(run.places.replaced.is_empty());
        assert!(run.places.only_saved().is_none());
    }

    #[test]
    fn slots_have_books_of_their_own() {
        let run = run(
            "create 0\nappend 1 0 0 100 1\nbuffer 2\nabort\ncreate 0 1\n\
                       append 2 0 0 100 0\nbuffer 1\nappend 1 100 100 100 0",
        );
        assert_eq!(in_slot(&run, 1), [(1, 2, 0, 0), (2, 8, 0, 0)]);
        assert_eq!(in_slot(&run, 2), [(1, 6, 6, 3)]);
        assert_eq!(reasons(&run), [(4, Why::NoBuffer)]);
        assert_eq!(run.not_done[0].slot, 2);
        assert!(run.balances());
    }

    #[test]
    fn a_second_creation_takes_the_first_buffer() {
        let run = run("create 0\nappend 1 0 0 100 1\nappend 1 0 0 100 0\nabort\n\
                       append 1 0 0 100 1\ncreate 2\ncreate 0\nappend 1 0 0 100 1");
        assert_eq!(in_slot(&run, 1), [(1, 8, 0, 0)]);
        let [replaced] = &run.places.replaced[..] else {
            panic!("{:?}", run.places.replaced);
        };
        assert_eq!((replaced.call, replaced.line), ("create", 7));
        let wanted = [(1, 2, 5, 4), (2, 3, 5, 4), (3, 5, 0, 0)];
        assert_eq!(vanished(replaced), wanted);
        assert!(replaced.vanished.iter().all(|row| !row.undone));
        assert_eq!(reasons(&run), [(6, Why::Refused(11))]);
        assert!(run.balances());
    }

    #[test]
    fn frames_that_only_the_saved_state_has() {
        let script = "create 0\nappend 1 0 0 100 1\nsave\ncreate 0";
        let kept = run(script);
        let saved = kept.places.only_saved().expect("a saved state");
        assert_eq!((saved.slot, saved.line), (1, 3));
        assert_eq!(saved.kept.book.offered.len(), 1);

        let gone = run(&format!("{script}\nsave"));
        assert!(gone.places.only_saved().is_none());
        let [created, saved] = &gone.places.replaced[..] else {
            panic!("{:?}", gone.places.replaced);
        };
        assert_eq!((created.place, created.line), (Place::Slot(1), 4));
        assert_eq!((saved.place, saved.line), (Place::Saved, 5));
        for replaced in [created, saved] {
            assert_eq!(vanished(replaced), [(1, 2, 0, 0)]);
        }
    }

    #[test]
    fn a_slot_tells_what_it_loses_whatever_the_other_has() {
        let copied = "create 0\nappend 1 0 0 100 1\nsave\nbuffer 2\nrestore\n";
        let calls = [
            ("remove 0 1\nsave", "restore", true),
            ("remove 0 1\nsave", "create 0", false),
            ("remove 2 3\nsave", "create 0", false),
        ];
        for (in_two, in_one, undone) in calls {
            let run = run(&format!("{copied}{in_two}\nbuffer 1\n{in_one}"));
            let [replaced] = &run.places.replaced[..] else {
                panic!("{in_one}: {:?}", run.places.replaced);
            };
            assert_eq!((replaced.place, replaced.line), (Place::Slot(1), 9));
            assert_eq!(vanished(replaced), [(1, 2, 0, 0)]);
            assert_eq!(replaced.vanished[0].undone, undone);
        }
    }

    #[test]
    fn a_state_saved_again_takes_no_frame() {
        let run = run("create 0\nappend 1 0 0 100 1\nsave\nremove 0 1\nsave");
        assert!(run.places.replaced.is_empty());
    }

    #[test]
    fn a_restore_over_a_spoilt_state() {
        let run = run("create 0\nappend 1 0 0 100 1\nsave\npoke frames 0\nrestore");
        let [replaced] = &run.places.replaced[..] else {
            panic!("{:?}", run.places.replaced);
        };
        assert_eq!(replaced.vanished[0].outcome, Outcome::Missing);
        assert!(!run.balances());
    }

    /// Where the frames in slot 1 were placed.
    fn placed_in(run: &Run) -> Vec<i64> {
        let (_, kept) = run.places.in_slots().next().expect("a buffer");
        let offered = kept.book.offered.iter();
        offered.map(|offering| offering.placed).collect()
    }

    #[test]
    fn frames_are_placed_by_the_offset() {
        let run = run("create 0\noffset 0.0005\nappend 1 0 0 100 1\n\
                       offset -0.001\nappend 1 500 500 100 1");
        assert_eq!(placed_in(&run), [500, -500]);
        assert_eq!(in_slot(&run, 1), [(1, 3, 0, 0), (2, 5, 5, 1)]);
    }

    #[test]
    fn each_frame_of_a_batch_has_its_own_offset() {
        let frames = ["1 5000 5000", "1 9000 9000", "1 200 200"];
        let call = |name: &str| {
            frames
                .map(|frame| format!("{name} {frame} 100 1\n"))
                .concat()
        };
        let batch = run(&format!(
            "create 0\nmode sequence\nbatch 3\n{}",
            call("frame")
        ));
        assert_eq!(placed_in(&batch), [0, 100, 200]);
        let singly = run(&format!("create 0\nmode sequence\n{}", call("append")));
        assert_eq!(placed_in(&singly), [0, 100, 200]);
    }

    #[test]
    fn a_batch_has_the_lines_of_its_frames() {
        let run = run(
            "create 0\nbatch 4\n# a\nframe 1 0 0 100 0\nframe 1 0 0 100 1\n\n\
                       frame 1 0 0 0 1\nframe 1 100 100 100 0\nbatch 1 fates=1\nframe 1 0 0 100 1",
        );
        assert_eq!(in_slot(&run, 1), [(1, 4, 2, 3), (2, 5, 0, 0)]);
        let wanted = [
            (7, Why::Stopped(4, 2)),
            (8, Why::NotTried(2)),
            (9, Why::Refused(2)),
        ];
        assert_eq!(reasons(&run), wanted);
        assert_eq!(run.not_done[2].frames, 1);
        assert!(run.balances());
    }

    #[test]
    fn a_poke_can_spoil_the_balance() {
        let script = "create 0\nappend 1 0 0 100 1\nappend 1 100 100 100 0\n\
                      poke frame 2 number 4294967296\npoke last-number 7\n";
        let spoilt = run(&format!("{script}append 1 200 200 100 0"));
        assert_eq!(reasons(&spoilt), [(4, Why::Declined)]);
        assert_eq!(spoilt.poked(), Some(5));
        assert!(!spoilt.balances());

        let mended = run(&format!(
            "{script}poke last-number 2\nappend 1 200 200 100 0"
        ));
        assert_eq!(mended.poked(), Some(5));
        assert!(mended.balances());
    }

    #[test]
    fn a_frame_that_a_poke_took() {
        let script = "create 0\nappend 1 0 0 100 1\npoke frames 0\nabort";
        let run = run(script);
        assert_eq!(reasons(&run), [(4, Why::Refused(1))]);
        let (_, kept) = run.places.in_slots().next().expect("a buffer");
        assert_eq!(kept.outcomes()[0].1, Outcome::Missing);
        assert!(!run.balances());
    }

    #[test]
    fn calls_that_only_read() {
        let held = "create 0\nappend 1 0 0 100 1\nappend 1 200 100 100 0\n";
        let [held, read] = [
            "",
            "settings\nranges 1\ncommon\nwalked 1 places=1\nwalked 1\nseek 1 250\nstate",
        ]
        .map(|calls| run(&format!("{held}{calls}")));
        assert_eq!(in_slot(&read, 1), in_slot(&held, 1));
        assert_eq!(reasons(&read), []);
        assert!(read.places.replaced.is_empty());
        assert!(read.balances());
    }

    #[test]
    fn lumps_need_no_buffer() {
        // A movie fragment without tracks, in two lumps and then in one.
        let (more, last) = ("lump more 1 1 1 1 1 1", "lump last 1 1 1 1 1 1");
        let run = run(&format!(
            "{more} 00000008\n{last} 6d6f6f66 buffer=65535\n{last} 6d6f6f66\n{last} -\n\
             {more} 000100016d6f6f66\n{more} 00\nlump-fresh\n{last} 000000086d6f6f66 buffer=70000"
        ));
        let wanted = [
            (2, Why::Refused(13)),
            (4, Why::Refused(12)),
            (5, Why::Refused(14)),
        ];
        assert_eq!(reasons(&run), wanted);
    }

    #[test]
    fn what_to_feed_needs_no_buffer() {
        let run = run("feed init 0 0 00 -\nfeed segment 0 1 - 00\nfeed segment 0 2 - 00");
        assert_eq!(reasons(&run), []);
    }

    #[test]
    fn calls_that_were_not_made() {
        let run = run("save\nrestore\npoke mode segments\nappend 1 0 0 1 1\n\
                       segment 1 1 1 1 1 1 -\nwalked 1\ncreate 0\nranges 2\nwindow-start -1\n\
                       walked 2 places=0\nseek 1 0\nseek 2 0\nbuffer 2\nseek 1 0");
        let wanted = [
            (1, Why::NoBuffer),
            (2, Why::NothingSaved),
            (3, Why::NoBuffer),
            (4, Why::NoBuffer),
            (5, Why::Refused(12)),
            (6, Why::NoBuffer),
            (8, Why::Refused(3)),
            (9, Why::Refused(6)),
            (10, Why::Refused(3)),
            (11, Why::Refused(15)),
            (12, Why::Refused(3)),
            (14, Why::NoBuffer),
        ];
        assert_eq!(reasons(&run), wanted);
        assert_eq!(run.poked(), None);
    }
}
