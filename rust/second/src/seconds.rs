//! "Times and numbers": the settings as they are kept, each time as it was given beside its
//! microseconds.

use crate::numbers::micros;
use crate::refusal::Refusal;

/// A time as a double in seconds, bit for bit as it was given, beside its microseconds.
#[derive(Clone, Copy, Debug, Default)]
pub struct Seconds {
    /// The double.
    pub double: f64,
    /// The microseconds that it stands for.
    pub micros: i64,
}

impl Seconds {
    /// A time handed in, or refusal 5.
    pub(crate) fn given(double: f64) -> Result<Self, Refusal> {
        let micros = micros(double).ok_or(Refusal::Seconds)?;
        Ok(Self { double, micros })
    }
}

/// Bit for bit, as the paper keeps doubles: -0.0 is not 0.0, and a NaN is itself.
impl PartialEq for Seconds {
    fn eq(&self, other: &Self) -> bool {
        self.double.to_bits() == other.double.to_bits() && self.micros == other.micros
    }
}

impl Eq for Seconds {}

/// The window end: unbounded, or a time. Both numbers are zero while it is unbounded.
#[derive(Clone, Copy, Debug, Default, PartialEq, Eq)]
pub struct End {
    /// Whether there is an end.
    pub bounded: bool,
    /// The end, zeros if there is none.
    pub time: Seconds,
}

impl End {
    /// An end handed in, where plus infinity means none; or refusal 5.
    pub(crate) fn given(double: f64) -> Result<Self, Refusal> {
        if double == f64::INFINITY {
            return Ok(Self::default());
        }
        Ok(Self {
            bounded: true,
            time: Seconds::given(double)?,
        })
    }

    /// The microseconds of the end if there is one.
    pub(crate) fn micros(&self) -> Option<i64> {
        self.bounded.then_some(self.time.micros)
    }

    /// Whether an instant is before the end.
    pub(crate) fn is_after(&self, micros: i64) -> bool {
        self.micros().is_none_or(|end| micros < end)
    }
}

/// Offset and window.
#[derive(Clone, Copy, Debug, Default, PartialEq, Eq)]
pub struct Settings {
    /// Added to the times of a frame as offered.
    pub offset: Seconds,
    /// Frames that begin before this are dropped.
    pub window_start: Seconds,
    /// Frames that end after this are dropped.
    pub window_end: End,
}
