//! The groups of the stores whose walks are timed: which frame is of which.

/// How the frames of a store are grouped.
#[derive(Clone, Copy, Debug, PartialEq, Eq)]
pub enum Grouping {
    /// All are of one group.
    One,
    /// Two groups take turns.
    Turns,
    /// Each frame is a group, of the next number.
    Each,
    /// Each frame is a group, of numbers in no order.
    Scattered,
    /// Each frame is a group, of numbers that have one remainder by any power of two up to 4,096.
    Apart,
}

impl Grouping {
    /// The group of the frame in a place.
    pub fn group(self, place: usize) -> u32 {
        let place = place as u32;
        match self {
            Self::One => 0,
            Self::Turns => place % 2,
            Self::Each => place,
            Self::Scattered => place.wrapping_mul(2_654_435_761), // odd, so that no two are one
            Self::Apart => place << 12,
        }
    }
}
