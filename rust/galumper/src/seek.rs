//! Where to start decoding: the frame that a track shows at an instant, the random access point from
//! which it is decoded, and how many frames that takes.

use crate::buffer::Buffer;
use crate::calls::done;
use crate::foreign;
use crate::names::Refusal;

/// Where to start decoding. The frames to decode stand in the buffer's rows from the one of these two
/// to the other: those of their group.
#[derive(Clone, Copy, Debug, PartialEq, Eq)]
pub struct Start {
    /// The number of the frame that covers the instant.
    pub target: u32,
    /// The number of the random access point from which it is decoded, which may be itself.
    pub flagged: u32,
    /// How many frames to decode, both of these counted: never more than the track has stored.
    pub count: usize,
}

impl Buffer {
    /// Where to start decoding, so that a track shows what it has at an instant in microseconds, which
    /// may be any.
    ///
    /// The target is the frame of the track that covers the instant; of several the one with the
    /// greatest presentation time, then with the greatest number. It is decoded from the nearest random
    /// access point of its group and track at or before it in store order. On a buffer that only these
    /// calls made, [`Refusal::NoStart`] says that no frame of the track covers the instant; on any other
    /// it may also say that the target has no such random access point.
    ///
    /// ```
    /// use galumper::{Fate, Kind, Offered, Refusal, Start, FATES};
    ///
    /// # fn main() -> Result<(), Refusal> {
    /// let mut buffer = galumper::create(&[Kind::VIDEO])?;
    /// for (n, flagged) in [(0, true), (1, false), (2, false), (3, true)] {
    ///     let time = 40_000 * n;
    ///     let frame = Offered { track: 1, flagged, duration: 40_000, pts: time, dts: time };
    ///     buffer.append(frame, &mut [Fate::default(); FATES])?;
    /// }
    /// let start = buffer.seek(1, 100_000)?;
    /// assert_eq!(start, Start { target: 3, flagged: 1, count: 3 });
    /// assert_eq!(buffer.seek(1, 160_000), Err(Refusal::NoStart));
    /// # Ok(())
    /// # }
    /// ```
    ///
    /// # Errors
    ///
    /// The first of these that applies: [`Refusal::IllFormed`], [`Refusal::NoTrack`],
    /// [`Refusal::NoStart`].
    pub fn seek(&self, track: u32, instant: i64) -> Result<Start, Refusal> {
        let Self { head, times, tags } = self;
        // SAFETY: the function takes numbers, and reads the arrays.
        let start = unsafe { foreign::galumper_lent_seek(*head, times, tags, track, instant) };
        done(start.refusal)?;
        Ok(Start {
            target: start.target,
            flagged: start.flagged,
            count: start.count,
        })
    }
}
