//! Builds that convert halves of a microsecond wrongly: all of them by another rule, or those of one
//! place by document 01's.

use script::{Second, Subject};
use second::{micros, quotient, Fate, Reading, Seconds, State};

/// What a build does wrongly.
#[derive(Clone, Copy, Debug, PartialEq, Eq)]
pub enum WrongHalf {
    ToEven,
    AwayFromZero,
    TowardsZero,
    Down,
    OffsetToEven,
    WindowStartToEven,
    WindowEndToEven,
    RemovalStartToEven,
    RemovalEndToEven,
    OrdersByEven,
    JudgesByEven,
    TakesSavedToo,
}

/// Where a half is converted.
#[derive(Clone, Copy, Debug, PartialEq, Eq)]
enum Place {
    Offset,
    WindowStart,
    WindowEnd,
    RemovalStart,
    RemovalEnd,
    Order,
    State,
}

/// What `second` does.
fn right() -> Second {
    Second::default()
}

/// Twice the microseconds of an exact half.
fn doubled(double: f64) -> Option<i64> {
    let multiple = double * 128.0;
    let is_half = micros(double).is_some() && multiple.rem_euclid(2.0) == 1.0;
    is_half.then_some(multiple as i64 * 15_625)
}

impl WrongHalf {
    pub const ALL: [Self; 12] = [
        Self::ToEven,
        Self::AwayFromZero,
        Self::TowardsZero,
        Self::Down,
        Self::OffsetToEven,
        Self::WindowStartToEven,
        Self::WindowEndToEven,
        Self::RemovalStartToEven,
        Self::RemovalEndToEven,
        Self::OrdersByEven,
        Self::JudgesByEven,
        Self::TakesSavedToo,
    ];

    /// The one place that is wrong, unless all are.
    fn place(self) -> Option<Place> {
        match self {
            Self::ToEven | Self::AwayFromZero | Self::TowardsZero | Self::Down => None,
            Self::OffsetToEven => Some(Place::Offset),
            Self::WindowStartToEven => Some(Place::WindowStart),
            Self::WindowEndToEven => Some(Place::WindowEnd),
            Self::RemovalStartToEven => Some(Place::RemovalStart),
            Self::RemovalEndToEven => Some(Place::RemovalEnd),
            Self::OrdersByEven => Some(Place::Order),
            Self::JudgesByEven | Self::TakesSavedToo => Some(Place::State),
        }
    }

    /// The microseconds of a half, of which these are twice as many.
    fn rounded(self, doubled: i64) -> i64 {
        let below = doubled.div_euclid(2);
        match self {
            Self::AwayFromZero => (doubled + doubled.signum()) / 2,
            Self::TowardsZero => doubled / 2,
            Self::Down => below,
            _ => below + below.rem_euclid(2),
        }
    }

    /// A double that `second` converts as the build converts this one at a place.
    fn seen(self, double: f64, at: Place) -> f64 {
        let is_wrong = self.place().is_none_or(|place| place == at);
        match doubled(double).filter(|_| is_wrong) {
            Some(doubled) => quotient(self.rounded(doubled)),
            None => double,
        }
    }

    /// The wrong setting of the offset.
    pub fn set_offset(self, state: &mut State, seconds: f64) -> Result<(), u32> {
        right().set_offset(state, self.seen(seconds, Place::Offset))?;
        state.head.settings.offset.double = seconds;
        Ok(())
    }

    /// The wrong setting of the window start.
    pub fn set_window_start(self, state: &mut State, seconds: f64) -> Result<(), u32> {
        right().set_window_start(&mut state.clone(), self.seen(seconds, Place::Order))?;
        right().set_window_start(state, self.seen(seconds, Place::WindowStart))?;
        state.head.settings.window_start.double = seconds;
        Ok(())
    }

    /// The wrong setting of the window end.
    pub fn set_window_end(self, state: &mut State, seconds: f64) -> Result<(), u32> {
        right().set_window_end(&mut state.clone(), self.seen(seconds, Place::Order))?;
        right().set_window_end(state, self.seen(seconds, Place::WindowEnd))?;
        let end = &mut state.head.settings.window_end;
        if end.bounded {
            end.time.double = seconds;
        }
        Ok(())
    }

    /// The wrong removal.
    pub fn remove(
        self,
        state: &mut State,
        start: f64,
        end: f64,
        fates: &mut [Fate],
    ) -> Result<usize, u32> {
        let [first, last] = [start, end].map(|time| self.seen(time, Place::Order));
        right().remove(&mut state.clone(), first, last, &mut fates.to_vec())?;
        let first = self.seen(start, Place::RemovalStart);
        let last = self.seen(end, Place::RemovalEnd);
        right().remove(state, first, last, fates)
    }

    /// The wrong test of a state, by which its settings are read.
    pub fn read_settings(self, state: &State) -> Result<Reading, u32> {
        let mut seen = *state;
        let settings = &mut seen.head.settings;
        let end = &mut settings.window_end.time;
        for kept in [&mut settings.offset, &mut settings.window_start, end] {
            let Some(converted) = doubled(kept.double).and(micros(kept.double)) else {
                continue;
            };
            match self.takes(kept) {
                true => kept.micros = converted,
                false => kept.double = f64::NAN,
            }
        }
        right().read_settings(&seen)
    }

    fn takes(self, kept: &Seconds) -> bool {
        let is_right = micros(kept.double) == Some(kept.micros);
        let converts = micros(self.seen(kept.double, Place::State)) == Some(kept.micros);
        converts || (is_right && self == Self::TakesSavedToo)
    }
}
