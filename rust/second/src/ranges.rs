//! "The bar on the timeline": the stretches that a track's frames cover, and those that all do; and
//! document 02, No. 3: how many frames a track's report takes until its list is too short.

use crate::refusal::Refusal;
use crate::state::{Frame, State};
use crate::well_formed::check;

/// A stretch of time: its start, and its end that no longer belongs to it.
pub type Stretch = [i64; 2];

/// Writes a track's ranges in rising order; gives their count.
pub fn track_ranges(state: &State, track: u32, list: &mut [Stretch]) -> Result<usize, Refusal> {
    check(state)?;
    state.head.track_index(track)?;
    hand_out(&covered(state.frames_of(track)), list)
}

/// Writes the ranges that all tracks cover in rising order; gives their count.
pub fn common_ranges(state: &State, list: &mut [Stretch]) -> Result<usize, Refusal> {
    check(state)?;
    let common = state
        .head
        .track_numbers()
        .map(|track| covered(state.frames_of(track)))
        .reduce(|ones, others| shared(&ones, &others))
        .unwrap_or_default();
    hand_out(&common, list)
}

/// How many of a track's frames its report takes in presentation order, into a list of so many
/// places: all of them, or where there is one range too many, those up to and with its first. What
/// comes before that one is presented before the range starts, and nothing else is.
pub fn walked(state: &State, track: u32, places: usize) -> Result<usize, Refusal> {
    check(state)?;
    state.head.track_index(track)?;
    let frames = state.frames_of(track);
    Ok(match covered(frames).get(places) {
        Some([start, _]) => 1 + frames.iter().filter(|frame| frame.pts < *start).count(),
        None => frames.len(),
    })
}

/// Refusal 10, or the ranges and nothing past them.
fn hand_out(ranges: &[Stretch], list: &mut [Stretch]) -> Result<usize, Refusal> {
    let places = list.get_mut(..ranges.len()).ok_or(Refusal::ShortList)?;
    places.copy_from_slice(ranges);
    Ok(ranges.len())
}

/// The widest unbroken stretches of a track's frames. They mostly come in order and join as they
/// come; only what is left in pieces out of order has to be sorted and joined again.
fn covered(frames: &[Frame]) -> Vec<Stretch> {
    let mut stretches = join(frames.iter().map(|frame| [frame.pts, frame.end()]));
    if !stretches.is_sorted() {
        stretches.sort_unstable();
        stretches = join(stretches.into_iter());
    }
    stretches
}

/// Joins each stretch to the one before if it starts within that or right at its end.
fn join(mut stretches: impl Iterator<Item = Stretch>) -> Vec<Stretch> {
    let mut joined = Vec::new();
    let Some([mut start, mut end]) = stretches.next() else {
        return joined;
    };
    for [next_start, next_end] in stretches {
        if (start..=end).contains(&next_start) {
            end = end.max(next_end);
        } else {
            joined.push([start, end]);
            [start, end] = [next_start, next_end];
        }
    }
    joined.push([start, end]);
    joined
}

/// What two lists of ranges share, by walking both at once.
fn shared(ones: &[Stretch], others: &[Stretch]) -> Vec<Stretch> {
    let mut both = Vec::new();
    let (mut ones, mut others) = (ones.iter().peekable(), others.iter().peekable());
    while let (Some(one), Some(other)) = (ones.peek(), others.peek()) {
        let (start, end) = (one[0].max(other[0]), one[1].min(other[1]));
        if start < end {
            both.push([start, end]);
        }
        // The one that ends first can share nothing more.
        if one[1] <= other[1] {
            ones.next();
        } else {
            others.next();
        }
    }
    both
}
