//! What a segment is written from: its maker, and the numbers that stand in it, mostly those of a
//! recorder, and in a wild segment those around the limits.

use second::{SegmentTrack, FINEST_TIMESCALE, OFFERED_LIMIT};

use crate::rng::Rng;

/// Writes one segment.
pub(super) struct Maker<'r> {
    pub(super) rng: &'r mut Rng,
    pub(super) of: SegmentTrack,
    /// Whether times and durations go to their limits and beyond.
    pub(super) wild: bool,
    /// The frames that the runs of the track announce.
    pub(super) frames: u64,
    /// The decode time of the fragment.
    pub(super) start: u64,
}

impl Maker<'_> {
    /// The media time that is the limit of times.
    pub(super) fn limit(&self) -> u64 {
        OFFERED_LIMIT as u64 / 1_000_000 * u64::from(self.of.timescale)
    }

    /// A media time: mostly one that a recorder has, or else around the limit or that of its bits.
    pub(super) fn time(&mut self) -> u64 {
        let (limit, near) = (self.limit(), self.rng.between(0, 200) as u64);
        if !self.wild || self.rng.percent(40) {
            return match self.rng.between(1, 3) {
                1 => near,
                2 => limit / 4 + near,
                _ => self.rng.next() % (limit / 2).max(1),
            };
        }
        match self.rng.between(1, 8) {
            1 => (limit + near % 3).saturating_sub(1),
            2 => (limit + near).saturating_sub(100),
            3 => limit.saturating_sub(u64::from(self.of.duration) * near / 50),
            4 => u64::from(u32::MAX) - near / 50,
            5 => u64::MAX - near / 50,
            6 => (1 << 63) - 100 + near,
            7 => u64::MAX / 1_000_000 - 100 + near,
            _ => self.rng.next() >> near.min(63),
        }
    }

    /// A duration: mostly one that a recorder has, or else at its limit of 10 s, or none.
    pub(super) fn duration(&mut self) -> u32 {
        let scale = self.of.timescale;
        let usual = [1, 2, 3, scale / 25, scale / 30, scale, 5];
        let limit = scale.saturating_mul(10);
        match self.wild && self.rng.percent(12) {
            true => self.rng.pick(&[
                0,
                limit,
                limit.saturating_sub(1),
                limit.saturating_add(1),
                u32::MAX,
                1 << 31,
            ]),
            false => self.rng.pick(&usual).max(1),
        }
    }

    /// A composition offset, as its bits: mostly a few frames, or else to the limits, or that of its
    /// bits.
    pub(super) fn offset(&mut self, version: u8) -> u32 {
        let frame = (self.of.timescale.min(FINEST_TIMESCALE) / 25).max(1);
        let few = self.rng.between(0, 3) as u32 * frame;
        if !self.wild || self.rng.percent(85) {
            return match version {
                0 => few,
                _ => self.rng.pick(&[few, few.wrapping_neg(), u32::MAX]),
            };
        }
        let off = self.rng.between(-1, 1) as u32;
        let [above, below] = [
            self.limit().wrapping_sub(self.start),
            self.limit().wrapping_add(self.start).wrapping_neg(),
        ]
        .map(|offset| (offset as u32).wrapping_add(off));
        self.rng.pick(&[
            above,
            above,
            below,
            i32::MAX as u32,
            i32::MIN as u32,
            u32::MAX,
        ])
    }

    /// How many samples: few, now and then many, or with nothing to say of each, any number.
    pub(super) fn count(&mut self, columns: u32) -> u32 {
        if self.rng.between(1, 200) == 1 {
            return self.rng.between(20, 400) as u32;
        }
        match columns == 0 && self.wild && self.rng.percent(30) {
            true => self.rng.pick(&[
                u32::MAX,
                u32::MAX - 1,
                1 << 31,
                1 << 16,
                1_000_000,
                1_000_001,
                65,
            ]),
            false => self.rng.pick(&[0, 1, 1, 2, 3, 4, 5, 12]),
        }
    }
}
