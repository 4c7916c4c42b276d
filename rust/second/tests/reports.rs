//! The reports against the timeline itself, microsecond by microsecond, and how many frames they take
//! against a walk, frame by frame.

use second::{common_ranges, create, track_ranges, walked, Frame, State, Stretch, FRAME_PLACES};

const END: i64 = 400;

/// Numbers from a linear congruence: enough to vary a test.
struct Numbers(u64);

impl Numbers {
    fn below(&mut self, bound: u64) -> u64 {
        self.0 = self
            .0
            .wrapping_mul(6_364_136_223_846_793_005)
            .wrapping_add(1);
        (self.0 >> 33) % bound
    }
}

/// A state with frames anywhere, not one that appends would have left.
fn scattered(numbers: &mut Numbers) -> State {
    let tracks = 1 + numbers.below(4) as u32;
    let mut state = create(&vec![0; tracks as usize]).expect("some tracks");
    let count = numbers.below(40) as usize;
    let mut frames: Vec<Frame> = (1..=count as u32)
        .map(|number| Frame {
            track: 1 + numbers.below(u64::from(tracks)) as u32,
            number,
            pts: numbers.below(300) as i64,
            dts: numbers.below(300) as i64,
            duration: 1 + numbers.below(30) as u32,
            flagged: true,
            group: 0,
        })
        .collect();
    frames.sort_by_key(|frame| (frame.track, frame.dts, frame.number));
    state.frames[..count].copy_from_slice(&frames);
    state.frame_count = count;
    state.head.last_number = count as u32;
    state
}

/// The widest unbroken stretches where something holds.
fn stretches(holds: impl Fn(i64) -> bool) -> Vec<Stretch> {
    let mut stretches: Vec<Stretch> = Vec::new();
    for instant in (0..END).filter(|&instant| holds(instant)) {
        match stretches.last_mut() {
            Some(last) if last[1] == instant => last[1] += 1,
            _ => stretches.push([instant, instant + 1]),
        }
    }
    stretches
}

#[test]
fn reports_are_what_the_frames_cover() {
    let mut numbers = Numbers(1);
    for _ in 0..500 {
        let state = scattered(&mut numbers);
        let covers = |track: u32, instant: i64| {
            let frames = state.frames[..state.frame_count].iter();
            let mut frames = frames.filter(|frame| frame.track == track);
            frames.any(|frame| (frame.pts..frame.end()).contains(&instant))
        };
        let tracks = 1..=state.head.track_count as u32;
        let mut list = [[0; 2]; FRAME_PLACES];
        for track in tracks.clone() {
            let count = track_ranges(&state, track, &mut list).expect("ranges");
            assert_eq!(list[..count], stretches(|instant| covers(track, instant)));
        }
        let count = common_ranges(&state, &mut list).expect("common ranges");
        let common = stretches(|instant| tracks.clone().all(|track| covers(track, instant)));
        assert_eq!(list[..count], common);
    }
}

/// How many of these frames, which are in presentation order, are taken until a range is begun that
/// has no place.
fn taken(frames: &[Frame], places: usize) -> usize {
    let mut ranges = 0;
    let mut end = i64::MIN;
    for (place, frame) in frames.iter().enumerate() {
        ranges += usize::from(frame.pts > end);
        if ranges > places {
            return place + 1;
        }
        end = end.max(frame.end());
    }
    frames.len()
}

#[test]
fn the_walk_takes_frames_until_a_range_has_no_place() {
    let mut numbers = Numbers(2);
    for _ in 0..500 {
        let state = scattered(&mut numbers);
        for track in 1..=state.head.track_count as u32 {
            let stored = state.frames[..state.frame_count].iter();
            let mut frames: Vec<Frame> = stored.filter(|f| f.track == track).copied().collect();
            frames.sort_by_key(|frame| frame.pts);
            let mut turned = frames.clone();
            turned.reverse();
            turned.sort_by_key(|frame| frame.pts);
            for places in 0..=frames.len() + 1 {
                let wanted = taken(&frames, places);
                assert_eq!(taken(&turned, places), wanted, "equal times, turned");
                assert_eq!(walked(&state, track, places), Ok(wanted));
            }
        }
    }
}
