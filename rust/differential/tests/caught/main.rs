//! Builds that are wrong in one thing each: the paper's idle ones, and the errors it has met.
//! Every one of them must be told from `second` within a few scripts, segments, lists of rows or
//! cuttings.

mod batches;
mod feeds;
mod groups;
mod halves;
mod lumps;
mod seeks;
mod segments;
mod walks;

use batches::WrongBatch;
use differential::{run, Answers, Failure, Plan};
use feeds::WrongFeed;
use groups::WrongGroup;
use halves::WrongHalf;
use lumps::{Lent, WrongLump, WrongReader};
use script::{Batch, Declined, Poke, Second, Subject};
use second::{
    micros, Branch, Fate, Feed, Frame, Maybe, Mode, Offered, Reading, Row, SegmentTrack, Start,
    State, Stretch, Trace, SECONDS_LIMIT,
};
use seeks::WrongSeek;
use segments::WrongSegment;
use walks::WrongWalk;

/// What a build does wrongly.
#[derive(Clone, Copy, Debug, PartialEq, Eq)]
enum Wrong {
    RefusesAll,
    DropsAll,
    ChangesNothing,
    ForgetsTheWalk,
    FirstPassOnly,
    InventsACount,
    WritesPastTheCount,
    WritesWhenRefused,
    MovesWhenRefused,
    KeepsTheDouble,
    CutsMicroseconds,
    JoinsAcrossOne,
    SameRangesAlways,
    SparesTheGroup,
    AcceptsDamage,
    DeclinesPokes,
    Batch(WrongBatch),
    Feed(WrongFeed),
    Group(WrongGroup),
    Half(WrongHalf),
    Lump(WrongLump),
    Seek(WrongSeek),
    Segment(WrongSegment),
    Walk(WrongWalk),
}

/// The build: `second`, and the wrong laid over it.
struct Build {
    second: Second<Breaks>,
    wrong: Wrong,
}

/// Hears whether an append broke the group in sequence mode.
#[derive(Default)]
struct Breaks(bool);

impl Trace for Breaks {
    fn reach(&mut self, branch: Branch) {
        match branch {
            Branch::AppendBegins => self.0 = false,
            Branch::BreakInSequence => self.0 = true,
            _ => {}
        }
    }
}

impl Build {
    fn new(wrong: Wrong) -> Self {
        Self {
            second: Second::default(),
            wrong,
        }
    }
}

impl Subject for Build {
    type State = State;
    type Fate = Fate;
    type Stretch = Stretch;
    type Row = Row;
    type Reader = WrongReader;

    fn append(
        &mut self,
        state: &mut State,
        offered: &Offered,
        fates: &mut [Fate],
    ) -> Result<usize, u32> {
        if let Wrong::Group(wrong) = self.wrong {
            return wrong.append(state, offered, fates);
        }
        let before = *state;
        let result = self.second.append(state, offered, fates);
        let Ok(count) = result else {
            match self.wrong {
                Wrong::WritesWhenRefused if !fates.is_empty() => fates[0] = [0, 0],
                Wrong::MovesWhenRefused => state.head.group_end += 1,
                _ => {}
            }
            return result;
        };
        match self.wrong {
            Wrong::RefusesAll => {
                *state = before;
                return Err(4);
            }
            Wrong::DropsAll => {
                let number = state.head.last_number;
                *state = before;
                state.head.last_number = number;
                fates[0] = [number, 3];
                return Ok(1);
            }
            Wrong::ChangesNothing => *state = before,
            Wrong::ForgetsTheWalk => return Ok(put_back(&before, state, fates, count)),
            Wrong::FirstPassOnly if self.second.trace.0 => {
                *state = before;
                return first_pass_only(&mut self.second, state, offered, fates);
            }
            Wrong::InventsACount => return Ok(count + 1),
            Wrong::WritesPastTheCount if count < fates.len() => fates[count] = [0, 0],
            Wrong::KeepsTheDouble => {
                let offset = &mut state.head.settings.offset;
                if offset.micros == before.head.settings.offset.micros {
                    *offset = before.head.settings.offset;
                }
            }
            _ => {}
        }
        result
    }

    fn append_batch(
        &mut self,
        state: &mut State,
        frames: &[Row],
        fates: &mut [Fate],
    ) -> Result<Batch, u32> {
        match self.wrong {
            Wrong::Batch(wrong) => wrong.append(state, frames, fates),
            _ => self.second.append_batch(state, frames, fates),
        }
    }

    fn remove(
        &mut self,
        state: &mut State,
        start: f64,
        end: f64,
        fates: &mut [Fate],
    ) -> Result<usize, u32> {
        match self.wrong {
            Wrong::Group(wrong) => return wrong.remove(state, start, end, fates),
            Wrong::Half(wrong) => return wrong.remove(state, start, end, fates),
            _ => {}
        }
        let before = state.head;
        let result = self.second.remove(state, start, end, fates);
        if self.wrong == Wrong::SparesTheGroup {
            state.head = before;
        }
        result
    }

    fn set_offset(&mut self, state: &mut State, seconds: f64) -> Result<(), u32> {
        if let Wrong::Half(wrong) = self.wrong {
            return wrong.set_offset(state, seconds);
        }
        let result = self.second.set_offset(state, seconds);
        let offset = &mut state.head.settings.offset;
        if self.wrong == Wrong::CutsMicroseconds && result.is_ok() {
            offset.micros = (seconds * SECONDS_LIMIT) as i64;
        }
        result
    }

    fn track_ranges(
        &mut self,
        state: &State,
        track: u32,
        list: &mut [Stretch],
    ) -> Result<usize, u32> {
        let count = self.second.track_ranges(state, track, list)?;
        match self.wrong {
            Wrong::SameRangesAlways if !list.is_empty() => {
                list[0] = [0, 100];
                Ok(1)
            }
            Wrong::JoinsAcrossOne if count > 1 && list[0][1] + 1 == list[1][0] => {
                list[0][1] = list[1][1];
                list.copy_within(2..count, 1);
                Ok(count - 1)
            }
            _ => Ok(count),
        }
    }

    fn walked(&mut self, state: &State, track: u32, places: usize) -> Result<usize, u32> {
        match self.wrong {
            Wrong::Walk(wrong) => wrong.walk(state, track, places),
            _ => self.second.walked(state, track, places),
        }
    }

    fn seek(&mut self, state: &State, track: u32, instant: i64) -> Result<Start, u32> {
        match self.wrong {
            Wrong::Seek(wrong) => wrong.seek(state, track, instant),
            _ => self.second.seek(state, track, instant),
        }
    }

    fn list_segment(
        &mut self,
        of: SegmentTrack,
        segment: &[u8],
        list: &mut [Row],
    ) -> Result<usize, u32> {
        match self.wrong {
            Wrong::Segment(wrong) => wrong.list(of, segment, list),
            _ => self.second.list_segment(of, segment, list),
        }
    }

    fn take_lump(
        &mut self,
        reader: &mut WrongReader,
        of: SegmentTrack,
        buffer: &mut [u8],
        lump: &[u8],
        last: bool,
        list: &mut [Row],
    ) -> Result<usize, u32> {
        let Wrong::Lump(wrong) = self.wrong else {
            let right = &mut reader.right;
            return self.second.take_lump(right, of, buffer, lump, last, list);
        };
        let lent = Lent {
            of,
            buffer,
            lump,
            last,
            list,
        };
        wrong.take(reader, lent)
    }

    fn feed<'a>(&mut self, initialization: &'a [u8], segment: &'a [u8], feed: Feed) -> &'a [u8] {
        match self.wrong {
            Wrong::Feed(wrong) => wrong.feed(initialization, segment, feed),
            _ => self.second.feed(initialization, segment, feed),
        }
    }

    fn damaged_readers(&self, reader: &WrongReader) -> Vec<WrongReader> {
        let damaged = self.second.damaged_readers(&reader.right);
        damaged.into_iter().map(WrongReader::of).collect()
    }

    fn poke(&mut self, state: &mut State, poke: &Poke) -> Result<(), Declined> {
        match (self.wrong, poke) {
            (Wrong::DeclinesPokes, Poke::WindowEndDouble(_)) => Err(Declined),
            // The damage is undone, so that the next call finds nothing wrong.
            (Wrong::AcceptsDamage, Poke::Frames(1025)) => Ok(()),
            _ => self.second.poke(state, poke),
        }
    }

    fn create(&mut self, kinds: &[u32]) -> Result<State, u32> {
        self.second.create(kinds)
    }

    fn abort(&mut self, state: &mut State) -> Result<(), u32> {
        match self.wrong {
            Wrong::Group(wrong) => wrong.abort(state),
            _ => self.second.abort(state),
        }
    }

    fn set_mode(&mut self, state: &mut State, mode: Mode) -> Result<(), u32> {
        match self.wrong {
            Wrong::Group(wrong) => wrong.set_mode(state, mode),
            _ => self.second.set_mode(state, mode),
        }
    }

    fn set_window_start(&mut self, state: &mut State, seconds: f64) -> Result<(), u32> {
        match self.wrong {
            Wrong::Half(wrong) => wrong.set_window_start(state, seconds),
            _ => self.second.set_window_start(state, seconds),
        }
    }

    fn set_window_end(&mut self, state: &mut State, seconds: f64) -> Result<(), u32> {
        match self.wrong {
            Wrong::Half(wrong) => wrong.set_window_end(state, seconds),
            _ => self.second.set_window_end(state, seconds),
        }
    }

    fn read_settings(&mut self, state: &State) -> Result<Reading, u32> {
        match self.wrong {
            Wrong::Half(wrong) => wrong.read_settings(state),
            _ => self.second.read_settings(state),
        }
    }

    fn common_ranges(&mut self, state: &State, list: &mut [Stretch]) -> Result<usize, u32> {
        self.second.common_ranges(state, list)
    }

    fn view(&self, state: &State) -> State {
        self.second.view(state)
    }
}

/// Puts the frames that went by cause 5 back into the store, and their lines out of the list.
fn put_back(before: &State, state: &mut State, fates: &mut [Fate], count: usize) -> usize {
    let (walked, kept): (Vec<Fate>, Vec<Fate>) =
        fates[..count].iter().partition(|[_, cause]| *cause == 5);
    let mut frames: Vec<Frame> = state.frames[..state.frame_count].to_vec();
    let lost = before.frames[..before.frame_count].iter();
    frames.extend(lost.filter(|frame| walked.iter().any(|[number, _]| *number == frame.number)));
    frames.sort_by_key(|frame| (frame.track, frame.dts, frame.number));
    state.frame_count = frames.len();
    state.frames[..frames.len()].copy_from_slice(&frames);
    fates[..kept.len()].copy_from_slice(&kept);
    kept.len()
}

/// Breaks the group and goes on with the times of the first pass.
fn first_pass_only(
    second: &mut Second<Breaks>,
    state: &mut State,
    offered: &Offered,
    fates: &mut [Fate],
) -> Result<usize, u32> {
    let head = &mut state.head;
    let group_end = head.group_end;
    for track in &mut head.tracks[..head.track_count] {
        track.last_decode = Maybe::UNSET;
        track.last_duration = Maybe::UNSET;
        track.highest_end = Maybe::UNSET;
        track.need_random_access = true;
    }
    let result = second.append(state, offered, fates);
    state.head.group_start = Maybe::of(group_end);
    result
}

/// What is put to a wrong build.
fn plan(wrong: Wrong) -> Plan {
    let (scripts, segments, rows, cuttings) = match wrong {
        Wrong::Segment(_) => (0, 3_000, 0, 0),
        Wrong::Lump(_) => (0, 0, 0, 10_000),
        Wrong::Batch(wrong) if wrong.shows_in_rows() => (0, 0, 3_000, 0),
        _ => (3_000, 0, 0, 0),
    };
    Plan {
        seed: 0,
        scripts,
        segments,
        rows,
        cuttings,
    }
}

fn put_to(wrong: Wrong) -> Result<(), Failure> {
    let mut one: Second = Second::default();
    run(plan(wrong), &mut one, &mut Build::new(wrong)).map(|_| ())
}

/// The same wrong build on both sides.
fn put_to_both(wrong: Wrong) -> Result<Answers, Failure> {
    run(plan(wrong), &mut Build::new(wrong), &mut Build::new(wrong))
}

#[test]
fn every_wrong_build_is_caught_by_a_short_script() {
    for wrong in [
        Wrong::RefusesAll,
        Wrong::DropsAll,
        Wrong::ChangesNothing,
        Wrong::ForgetsTheWalk,
        Wrong::FirstPassOnly,
        Wrong::InventsACount,
        Wrong::WritesPastTheCount,
        Wrong::WritesWhenRefused,
        Wrong::MovesWhenRefused,
        Wrong::KeepsTheDouble,
        Wrong::CutsMicroseconds,
        Wrong::JoinsAcrossOne,
        Wrong::SameRangesAlways,
        Wrong::SparesTheGroup,
        Wrong::AcceptsDamage,
    ] {
        let failure = put_to(wrong).expect_err("a difference");
        println!("{wrong:?}: {failure}\n");
        assert!(failure.script.len() <= 8, "{wrong:?}: {failure}");
    }
}

#[test]
fn every_wrong_batch_is_caught_by_a_short_script() {
    for wrong in WrongBatch::ALL {
        let failure = put_to(Wrong::Batch(wrong)).expect_err("a difference");
        println!("{wrong:?}: {failure}\n");
        assert!(failure.script.len() <= 8, "{wrong:?}: {failure}");
    }
}

#[test]
fn every_wrong_group_is_caught_by_a_short_script() {
    for wrong in WrongGroup::ALL {
        let failure = put_to(Wrong::Group(wrong)).expect_err("a difference");
        println!("{wrong:?}: {failure}\n");
        assert!(failure.script.len() <= 8, "{wrong:?}: {failure}");
    }
}

#[test]
fn a_last_group_that_both_get_wrong_is_caught() {
    for wrong in [WrongGroup::AbortsInTheLast, WrongGroup::DropsInTheLast] {
        let failure = put_to_both(Wrong::Group(wrong));
        let parting = failure.expect_err("no refusal").parting;
        let due = parting.other.starts_with("in the last group: refused 9");
        assert!(due, "{parting}");
    }
}

#[test]
fn every_wrong_half_is_caught_by_a_short_script() {
    for wrong in WrongHalf::ALL {
        let failure = put_to(Wrong::Half(wrong)).expect_err("a difference");
        println!("{wrong:?}: {failure}\n");
        assert!(failure.script.len() <= 8, "{wrong:?}: {failure}");
    }
}

#[test]
fn halves_that_both_get_wrong_are_missed() {
    let answers = put_to_both(Wrong::Half(WrongHalf::ToEven));
    let gaps = answers.expect("no difference").gaps();
    let is_missed = |what: &str| gaps.iter().any(|gap| gap == what);
    for what in [
        "half handed in, offset below zero, even below: never",
        "half handed in, window end up from the start: never",
        "half handed in, removal start up from a frame, which stays: never",
        "settings refused 1 for a half: 0 times",
    ] {
        assert!(is_missed(what), "{what}");
    }
    let odd = "half handed in, offset below zero, odd below: never";
    assert!(!is_missed(odd), "{odd}");
}

#[test]
fn every_wrong_walk_is_caught_by_a_short_script() {
    for wrong in WrongWalk::ALL {
        let failure = put_to(Wrong::Walk(wrong)).expect_err("a difference");
        println!("{wrong:?}: {failure}\n");
        assert!(failure.script.len() <= 8, "{wrong:?}: {failure}");
    }
}

#[test]
fn a_walk_that_both_get_wrong_is_caught() {
    let failure = put_to_both(Wrong::Walk(WrongWalk::ForgetsTheFrameTooMany));
    let parting = failure.expect_err("a walk of another length").parting;
    assert!(parting.other.starts_with("frame by frame: "), "{parting}");

    let answers = put_to_both(Wrong::Walk(WrongWalk::RefusesAShortList));
    let gaps = answers.expect("no difference").gaps();
    let undue = gaps
        .iter()
        .any(|gap| gap.starts_with("walked refused 10: "));
    assert!(undue, "{}", gaps.join("\n"));
}

#[test]
fn every_wrong_seek_is_caught_by_a_short_script() {
    for wrong in WrongSeek::ALL {
        let failure = put_to(Wrong::Seek(wrong)).expect_err("a difference");
        println!("{wrong:?}: {failure}\n");
        assert!(failure.script.len() <= 8, "{wrong:?}: {failure}");
    }
}

#[test]
fn every_wrong_feed_is_caught_by_one_call() {
    for wrong in WrongFeed::ALL {
        let failure = put_to(Wrong::Feed(wrong)).expect_err("a difference");
        println!("{wrong:?}: {failure}\n");
        assert_eq!(failure.script.len(), 1, "{wrong:?}: {failure}");
    }
}

#[test]
fn a_seek_or_a_feed_that_both_get_wrong_is_caught() {
    for wrong in [
        Wrong::Seek(WrongSeek::PresentedFirst),
        Wrong::Seek(WrongSeek::CountsOtherGroups),
        Wrong::Seek(WrongSeek::StartsWithoutAPoint),
        Wrong::Feed(WrongFeed::GivesTheRest),
        Wrong::Feed(WrongFeed::Copies),
    ] {
        let failure = put_to_both(wrong);
        let parting = failure.expect_err("what is due").parting;
        let due = parting.other.starts_with("as the request says: ");
        assert!(due, "{wrong:?}: {parting}");
    }
}

#[test]
fn every_wrong_reader_of_segments_is_caught() {
    for wrong in WrongSegment::ALL {
        let failure = put_to(Wrong::Segment(wrong)).expect_err("a difference");
        println!("{wrong:?}: {failure}\n");
    }
}

#[test]
fn every_wrong_reader_of_lumps_is_caught() {
    for wrong in WrongLump::ALL {
        let failure = put_to(Wrong::Lump(wrong)).expect_err("a difference");
        let calls = failure.script.len();
        println!("{wrong:?}: call {calls}, {}", failure.parting.other);
    }
    assert!(put_to(Wrong::Lump(WrongLump::Right)).is_ok());
}

#[test]
fn a_reader_of_lumps_that_both_get_wrong_is_caught() {
    for wrong in [
        WrongLump::ListsTheLastLumpAlone,
        WrongLump::LargeWithTheBody,
        WrongLump::OneMoreIsTaken,
        WrongLump::BeginsAnewWhenRefused,
    ] {
        let failure = put_to_both(Wrong::Lump(wrong));
        let parting = failure.expect_err("what is due").parting;
        assert!(parting.other.starts_with("due: "), "{parting}");
    }
}

#[test]
fn a_build_that_declines_pokes_is_not_wrong() {
    assert!(put_to(Wrong::DeclinesPokes).is_ok());
}

#[test]
fn microseconds_are_cut_where_the_paper_rounds() {
    // What makes `CutsMicroseconds` wrong, so that the test above is no accident.
    let seconds = 0.0234375;
    assert_eq!((seconds * SECONDS_LIMIT) as i64, 23437);
    assert_eq!(micros(seconds), Some(23438));
}
