//! The settings of a saved buffer, made again on a fresh one.

use crate::buffer::{Buffer, Head};
use crate::calls::create;
use crate::names::{Kind, Mode, Refusal};

impl Buffer {
    /// A fresh buffer with the kinds, the settings and the mode of this one. That may be one that was
    /// saved before version 0.9.0 and that every call refuses now, as a setting of it is half way
    /// between two microseconds.
    ///
    /// The doubles are those that this one keeps, their microseconds those of this version. In sequence
    /// mode the next group starts at the timestamp offset where it was to start there in this one, and
    /// else at 0. No frame comes along: the first that is appended has number 1.
    ///
    /// ```
    /// use galumper::{Kind, Refusal};
    ///
    /// # fn main() -> Result<(), Refusal> {
    /// let mut saved = galumper::create(&[Kind::VIDEO])?;
    /// saved.set_offset(0.0078125)?;
    /// saved.head.settings.offset.micros = 7_812; // as it was before version 0.9.0
    /// assert_eq!(saved.read_settings(), Err(Refusal::IllFormed));
    ///
    /// let buffer = saved.made_again()?;
    /// assert_eq!(buffer.read_settings()?.offset, 0.0078125);
    /// assert_eq!(buffer.head.settings.offset.micros, 7_813);
    /// # Ok(())
    /// # }
    /// ```
    ///
    /// # Errors
    ///
    /// [`Refusal::Order`] where the append window was a microsecond long and its start has moved up to
    /// its end; [`Refusal::Seconds`] for a timestamp offset beyond 1,000,000 seconds, which an append in
    /// sequence mode may have set, and no other call can. For a buffer that was not well-formed before
    /// either also [`Refusal::Kinds`].
    ///
    /// # Panics
    ///
    /// As [`create`] does.
    pub fn made_again(&self) -> Result<Box<Self>, Refusal> {
        let Head {
            tracks,
            ntracks,
            mode,
            group,
            settings,
            ..
        } = self.head;
        let tracks = tracks.get(..ntracks).ok_or(Refusal::Kinds)?;
        let kinds: Vec<Kind> = tracks.iter().map(|track| track.kind).collect();
        let mut fresh = create(&kinds)?;
        fresh.set_window_start(settings.start.seconds())?;
        if settings.bounded == 1 {
            fresh.set_window_end(f64::from_bits(settings.end))?;
        }
        fresh.set_offset(settings.offset.seconds())?;
        if mode == Mode::Sequence.number() {
            fresh.set_mode(Mode::Sequence)?;
            // Only an offset that is set in sequence mode is where the next group starts.
            if group.begun == 1 && group.start == settings.offset.micros {
                fresh.set_offset(settings.offset.seconds())?;
            }
        }
        Ok(fresh)
    }
}
