//! "Appending one frame": the nine steps.

use std::ops::Range;

use crate::numbers::{frame_duration, offered_time, quotient, result_time};
use crate::refusal::{Cause, Fate, Refusal};
use crate::seconds::Seconds;
use crate::state::{Frame, Head, Maybe, Mode, Offered, State, Track, FRAME_PLACES};
use crate::store::{check_fates, take_out, Latest};
use crate::trace::{BatchBranch, Branch, Trace};
use crate::well_formed::check_traced;

/// Appends a frame; gives the count of fate lines.
pub fn append(state: &mut State, offered: &Offered, fates: &mut [Fate]) -> Result<usize, Refusal> {
    append_traced(state, offered, fates, &mut ())
}

/// [`append`], telling its branches.
pub fn append_traced<T: Trace>(
    state: &mut State,
    offered: &Offered,
    fates: &mut [Fate],
    trace: &mut T,
) -> Result<usize, Refusal> {
    check_traced(state, trace)?;
    check_fates(fates, FRAME_PLACES)?;
    append_tested(state, offered, &mut Latest::unknown(), fates, trace)
}

/// The append on a state that is well-formed, with lines enough for all that it can lose: so much
/// is asked once for a whole batch of frames. `latest` is what is known of the tracks' frames, and
/// is kept true.
pub(crate) fn append_tested<T: Trace>(
    state: &mut State,
    offered: &Offered,
    latest: &mut Latest,
    fates: &mut [Fate],
    trace: &mut T,
) -> Result<usize, Refusal> {
    // Refusals 3, 4, 9.
    let index = state.head.track_index(offered.track)?;
    check_offered(offered)?;
    let number = state.head.last_number.checked_add(1);
    let number = number.ok_or(Refusal::NumbersGone)?;
    trace.reach(Branch::AppendBegins);

    // Steps 1 to 6 on a copy, and refusals 7 and, of the group, 9 among them.
    let mut head = state.head;
    head.last_number = number;
    let frame = place(&mut head, index, offered, trace)?;
    if let Some(cause) = drop_cause(&mut head, index, &frame, trace) {
        state.head = head;
        fates[0] = cause.line(number);
        return Ok(1);
    }
    // Steps 7 to 9, once refusal 8 is out of the way.
    let taken = overlapped(&head.tracks[index], &frame, trace);
    let places = searched(state, frame.track, &taken, latest, trace);
    check_room(state, places.clone(), &taken, trace)?;
    let count = take_overlapped(state, &frame, places, &taken, fates, trace);
    store(state, frame, trace);
    latest.note(&frame);
    settle(&mut head, index, &frame, trace);
    state.head = head;
    Ok(count)
}

/// Refusal 4.
fn check_offered(offered: &Offered) -> Result<(), Refusal> {
    let within = offered_time(offered.pts)
        && offered_time(offered.dts)
        && frame_duration(i64::from(offered.duration));
    if !within {
        return Err(Refusal::OfferedLimits);
    }
    Ok(())
}

/// Steps 1 to 3, each pass with the frame as offered. There are two passes at most: the first
/// break unsets the last decode time, without which nothing breaks. The group that a break begins
/// is asked for when both passes have gone by refusal 7.
fn place<T: Trace>(
    head: &mut Head,
    index: usize,
    offered: &Offered,
    trace: &mut T,
) -> Result<Frame, Refusal> {
    let mut group = Ok(head.group);
    let frame = loop {
        start_group(head, offered, trace);
        let frame = shift(head, offered, trace)?;
        if !breaks(&head.tracks[index], frame.dts, trace) {
            break frame;
        }
        head.break_group(frame.pts, trace);
        group = head.next_group();
    };
    head.group = group.inspect_err(|_| trace.reach(Branch::GroupsGone))?;
    Ok(Frame {
        group: head.group, // the next one after a break
        ..frame
    })
}

/// Step 1: in sequence mode with group start set, the offset moves the frame to the group start.
fn start_group<T: Trace>(head: &mut Head, offered: &Offered, trace: &mut T) {
    if head.mode == Mode::Segments {
        trace.reach(Branch::Step1Segments);
        return;
    }
    let Some(start) = head.group_start.get() else {
        trace.reach(Branch::Step1Unset);
        return;
    };
    let micros = start - offered.pts;
    trace.reach(match micros == head.settings.offset.micros {
        true => Branch::Step1Same,
        false => Branch::Step1Moves,
    });
    head.settings.offset = Seconds {
        double: quotient(micros),
        micros,
    };
    head.group_end = start;
    head.need_everywhere();
    head.group_start = Maybe::UNSET;
}

/// Step 2: the frame with the offset added, or refusal 7.
fn shift<T: Trace>(head: &Head, offered: &Offered, trace: &mut T) -> Result<Frame, Refusal> {
    let offset = head.settings.offset.micros;
    let frame = Frame::placed(offered, offset, head.last_number, head.group);
    let leaves = [
        (offset, Branch::OffsetLeaves),
        (frame.pts, Branch::PresentationLeaves),
        (frame.dts, Branch::DecodeLeaves),
        (frame.end(), Branch::EndLeaves),
    ]
    .into_iter()
    .find(|&(time, _)| !result_time(time));
    match leaves {
        Some((_, branch)) => {
            trace.reach(branch);
            Err(Refusal::ResultLimits)
        }
        None => Ok(frame),
    }
}

/// Step 3: whether the decode time breaks off from the last one on the track.
fn breaks<T: Trace>(track: &Track, dts: i64, trace: &mut T) -> bool {
    let (Some(last), Some(duration)) = (track.last_decode.get(), track.last_duration.get()) else {
        trace.reach(Branch::Step3Unset);
        return false;
    };
    let step = dts - last;
    let branch = match step {
        ..0 => Branch::Step3Below,
        0 => Branch::Step3Equal,
        _ if step < 2 * duration => Branch::Step3Within,
        _ if step == 2 * duration => Branch::Step3Twice,
        _ => Branch::Step3Beyond,
    };
    trace.reach(branch);
    matches!(branch, Branch::Step3Below | Branch::Step3Beyond)
}

/// Steps 4 to 6: why the frame is dropped, if it is; turns need-random-access on or off.
fn drop_cause<T: Trace>(
    head: &mut Head,
    index: usize,
    frame: &Frame,
    trace: &mut T,
) -> Option<Cause> {
    let Head {
        settings, tracks, ..
    } = head;
    let need = &mut tracks[index].need_random_access;
    if frame.pts < settings.window_start.micros {
        trace.reach(Branch::Step4Drop);
        *need = true;
        return Some(Cause::BeforeWindow);
    }
    if settings
        .window_end
        .micros()
        .is_some_and(|end| frame.end() > end)
    {
        trace.reach(Branch::Step5Drop);
        *need = true;
        return Some(Cause::AfterWindow);
    }
    if *need && !frame.flagged {
        trace.reach(Branch::Step6Drop);
        return Some(Cause::NeedsRandomAccess);
    }
    trace.reach(match *need {
        true => Branch::Step6Off,
        false => Branch::Step6Clear,
    });
    *need = false;
    None
}

/// Step 7: the stretch whose frames the new one takes out.
fn overlapped<T: Trace>(track: &Track, frame: &Frame, trace: &mut T) -> Range<i64> {
    let (branch, start) = match track.highest_end.get() {
        None => (Branch::Step7Unset, frame.pts),
        Some(highest) if highest < frame.pts => (Branch::Step7Below, highest),
        Some(highest) if highest == frame.pts => (Branch::Step7At, highest),
        Some(_) => (Branch::Step7Above, frame.end()), // an empty stretch
    };
    trace.reach(branch);
    start..frame.end()
}

/// The places to be searched for frames in the stretch: the track's, or none where it is plain that
/// no frame is in it.
fn searched<T: Trace>(
    state: &State,
    track: u32,
    taken: &Range<i64>,
    latest: &Latest,
    trace: &mut T,
) -> Range<usize> {
    if taken.is_empty() {
        return 0..0;
    }
    if latest.precedes(track, taken) {
        trace.batch(BatchBranch::Beyond);
        return 0..0;
    }
    state.places_of(track)
}

/// Refusal 8: as any frame taken frees a place, only a full store of which none is taken.
fn check_room<T: Trace>(
    state: &State,
    places: Range<usize>,
    taken: &Range<i64>,
    trace: &mut T,
) -> Result<(), Refusal> {
    if state.frame_count < FRAME_PLACES {
        return Ok(());
    }
    let olds = &state.frames[places];
    if !olds.iter().any(|old| taken.contains(&old.pts)) {
        trace.reach(Branch::Full);
        return Err(Refusal::Full);
    }
    trace.reach(Branch::RoomFreed);
    Ok(())
}

/// Steps 7 and 8: takes the overlapped frames out of some places, and those that follow them.
fn take_overlapped<T: Trace>(
    state: &mut State,
    frame: &Frame,
    places: Range<usize>,
    taken: &Range<i64>,
    fates: &mut [Fate],
    trace: &mut T,
) -> usize {
    let mut count = 0;
    let kept = take_out(
        &mut state.frames[places.clone()],
        taken,
        Cause::Overlapped,
        trace,
        |old, cause, trace| {
            fates[count] = cause.line(old.number);
            count += 1;
            if cause == Cause::Overlapped {
                trace.reach(match old.pts < frame.pts {
                    true => Branch::Step7Gap,
                    false => Branch::Step7Takes,
                });
            }
        },
    );
    if count == 0 {
        trace.reach(Branch::Step7None);
    }
    state.close(places.start + kept..places.end);
    count
}

/// Step 9, the store.
fn store<T: Trace>(state: &mut State, frame: Frame, trace: &mut T) {
    let place = state.insert(frame);
    let (before, after) = (&state.frames[..place], &state.frames[place + 1..]);
    trace.reach(match after.first() {
        Some(next) if next.track == frame.track => Branch::Step9Before,
        _ => Branch::Step9Last,
    });
    if before
        .last()
        .is_some_and(|last| (last.track, last.dts) == (frame.track, frame.dts))
    {
        trace.reach(Branch::Step9Equal);
    }
    if frame.group == u32::MAX {
        trace.reach(Branch::Step9LastGroup);
    }
}

/// Step 9, the track and the group.
fn settle<T: Trace>(head: &mut Head, index: usize, frame: &Frame, trace: &mut T) {
    let track = &mut head.tracks[index];
    track.last_decode = Maybe::of(frame.dts);
    track.last_duration = Maybe::of(i64::from(frame.duration));
    let end = frame.end();
    let (branch, highest) = match track.highest_end.get() {
        None => (Branch::Step9HighestSet, end),
        Some(highest) if highest < end => (Branch::Step9HighestRaised, end),
        Some(highest) => (Branch::Step9HighestKept, highest),
    };
    trace.reach(branch);
    track.highest_end = Maybe::of(highest);
    trace.reach(match head.group_end < end {
        true => Branch::Step9GroupRaised,
        false => Branch::Step9GroupKept,
    });
    head.group_end = head.group_end.max(end);
}
