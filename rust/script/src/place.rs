//! The places of lent lists, a few numbers each. An implementation is lent lists of its own type,
//! so that nothing has to be copied before a call or after it.

/// A place of a list: a fate line as number and cause, a range as start and end, or a listed frame
/// as its six numbers.
pub trait Place<N, const NUMBERS: usize>: Copy + PartialEq {
    /// A place with its numbers.
    fn of(numbers: [N; NUMBERS]) -> Self;
    /// Its numbers.
    fn numbers(self) -> [N; NUMBERS];
}

impl<N: Copy + PartialEq, const NUMBERS: usize> Place<N, NUMBERS> for [N; NUMBERS] {
    fn of(numbers: [N; NUMBERS]) -> Self {
        numbers
    }

    fn numbers(self) -> [N; NUMBERS] {
        self
    }
}

impl Place<u32, 2> for galumper::Fate {
    fn of([number, cause]: [u32; 2]) -> Self {
        let cause = galumper::Cause(cause);
        Self { number, cause }
    }

    fn numbers(self) -> [u32; 2] {
        [self.number, self.cause.0]
    }
}

impl Place<i64, 2> for galumper::Range {
    fn of([start, end]: [i64; 2]) -> Self {
        Self { start, end }
    }

    fn numbers(self) -> [i64; 2] {
        [self.start, self.end]
    }
}

impl Place<i64, 6> for galumper::ListedFrame {
    fn of([track, pts, dts, duration, flagged, size]: [i64; 6]) -> Self {
        Self {
            track,
            pts,
            dts,
            duration,
            flagged,
            size,
        }
    }

    fn numbers(self) -> [i64; 6] {
        [
            self.track,
            self.pts,
            self.dts,
            self.duration,
            self.flagged,
            self.size,
        ]
    }
}
