//! Exact halves of a microsecond, as the request has them and as document 01 had them: handed in by
//! calls, and kept in the states that calls take.

use script::Call;
use second::{micros, well_formed, Head, Seconds, Settings, State, SECONDS_LIMIT};

/// An odd multiple of 1/128 s, by its number; no other double is an exact half.
#[derive(Clone, Copy, Debug)]
pub(crate) struct Half(pub(crate) i64);

impl Half {
    /// The half that a double is, if it is one within the limit; the product is exact.
    pub(crate) fn of(double: f64) -> Option<Self> {
        let multiple = double * 128.0;
        let is_half = double.abs() <= SECONDS_LIMIT && multiple.rem_euclid(2.0) == 1.0;
        is_half.then_some(Self(multiple as i64))
    }

    pub(crate) fn double(self) -> f64 {
        self.0 as f64 / 128.0
    }

    /// The whole number of microseconds below it.
    pub(crate) fn below(self) -> i64 {
        (self.0 * 15_625).div_euclid(2)
    }

    /// Its microseconds.
    pub(crate) fn up(self) -> i64 {
        self.below() + 1
    }

    /// Its microseconds by document 01.
    pub(crate) fn even(self) -> i64 {
        self.below() + self.below().rem_euclid(2)
    }
}

/// A time in seconds that a call hands in. The first three are kept.
#[derive(Clone, Copy, Debug, PartialEq, Eq)]
pub(crate) enum Time {
    Offset,
    WindowStart,
    WindowEnd,
    RemovalStart,
    RemovalEnd,
}

/// Where a time is kept.
fn setting(settings: &mut Settings, time: Time) -> Option<&mut Seconds> {
    match time {
        Time::Offset => Some(&mut settings.offset),
        Time::WindowStart => Some(&mut settings.window_start),
        Time::WindowEnd => Some(&mut settings.window_end.time),
        Time::RemovalStart | Time::RemovalEnd => None,
    }
}

/// The times of a call, each with the microseconds that refusal 6 compares it with.
fn times(call: &str, settings: &Settings) -> Vec<(Time, f64, Option<i64>)> {
    let (start, end) = (settings.window_start, settings.window_end);
    match Call::read(call) {
        Some(Call::Offset(time)) => vec![(Time::Offset, time, None)],
        Some(Call::WindowStart(time)) => {
            let end = end.bounded.then_some(end.time.micros);
            vec![(Time::WindowStart, time, end)]
        }
        Some(Call::WindowEnd(time)) => vec![(Time::WindowEnd, time, Some(start.micros))],
        Some(Call::Remove(start, end, _)) => vec![
            (Time::RemovalStart, start, micros(end)),
            (Time::RemovalEnd, end, micros(start)),
        ],
        _ => Vec::new(),
    }
}

/// A half that a call hands in.
#[derive(Clone, Debug)]
pub(crate) struct HandedHalf {
    /// The time that it is.
    pub(crate) time: Time,
    /// The half.
    pub(crate) half: Half,
    /// What the call is answered.
    pub(crate) answer: String,
    /// The setting's microseconds after the call.
    pub(crate) set: Option<i64>,
    /// The microseconds that refusal 6 compares it with.
    pub(crate) other: Option<i64>,
    /// The number of a random access point that is presented at the whole number below.
    pub(crate) point_below: Option<u32>,
}

impl HandedHalf {
    /// Those of a call, by the states before and after it.
    pub(crate) fn all(call: &str, answer: &str, before: &State, after: &State) -> Vec<Self> {
        let times = times(call, &before.head.settings).into_iter();
        let halves = times.filter_map(|(time, double, other)| {
            let half = Half::of(double)?;
            let mut settings = after.head.settings;
            let mut stored = before.frames[..before.frame_count].iter();
            let point = stored.find(|frame| frame.flagged && frame.pts == half.below());
            Some(Self {
                time,
                half,
                answer: answer.to_string(),
                set: setting(&mut settings, time).map(|kept| kept.micros),
                other,
                point_below: point.map(|frame| frame.number),
            })
        });
        halves.collect()
    }
}

/// A half that a state keeps in which nothing else is wrong.
#[derive(Clone, Copy, Debug)]
pub(crate) struct KeptHalf {
    /// The setting.
    pub(crate) time: Time,
    /// The half.
    pub(crate) half: Half,
    /// The microseconds beside it.
    pub(crate) micros: i64,
    /// Whether the call that took the state was refused 1.
    pub(crate) refused: bool,
}

impl KeptHalf {
    /// Those of a state that a call took.
    pub(crate) fn all(state: &State, answer: &str) -> Vec<Self> {
        let kept = [Time::Offset, Time::WindowStart, Time::WindowEnd].into_iter();
        let halves = kept.filter_map(|time| {
            let mut settings = state.head.settings;
            let kept = setting(&mut settings, time)?;
            let half = Half::of(kept.double)?;
            let micros = std::mem::replace(&mut kept.micros, half.up());
            let head = Head {
                settings,
                ..state.head
            };
            let mended = State { head, ..*state };
            well_formed(&mended).is_ok().then_some(Self {
                time,
                half,
                micros,
                refused: answer == "refused 1",
            })
        });
        halves.collect()
    }

    /// Whether it was refused for microseconds that only document 01 has.
    pub(crate) fn is_outdated(&self) -> bool {
        let Self { half, micros, .. } = *self;
        self.refused && micros == half.even() && micros != half.up()
    }
}
