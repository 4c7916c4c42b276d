//! "Times and numbers": the limits, and how seconds become microseconds.

/// Presentation and decode times as offered lie within this, either way.
pub const OFFERED_LIMIT: i64 = 1_000_000_000_000;

/// The offset, and every time after it is applied, lies within this, either way.
pub const RESULT_LIMIT: i64 = 4_000_000_000_000;

/// The longest duration of a frame; the shortest is 1.
pub const LONGEST_DURATION: u32 = 10_000_000;

/// Seconds handed in lie within this, either way.
pub const SECONDS_LIMIT: f64 = 1_000_000.0;

pub(crate) const MICROS_PER_SECOND: u32 = 1_000_000;

/// Whether a time as offered is within its limits.
pub(crate) fn offered_time(time: i64) -> bool {
    (-OFFERED_LIMIT..=OFFERED_LIMIT).contains(&time)
}

/// Whether a time after the offset is within its limits.
pub(crate) fn result_time(time: i64) -> bool {
    (-RESULT_LIMIT..=RESULT_LIMIT).contains(&time)
}

/// Whether a duration is one that a frame may have.
pub(crate) fn frame_duration(duration: i64) -> bool {
    (1..=i64::from(LONGEST_DURATION)).contains(&duration)
}

/// The microsecond nearest to the exact value of a double; nothing for a double that is not finite or
/// beyond the limit. Halves go towards plus infinity, by document 02, No. 7, "Halves must go up", where
/// document 01 had the even number.
///
/// The double is read from its bits as an exact fraction: a product of doubles would round once
/// before the rounding that is asked for.
pub fn micros(seconds: f64) -> Option<i64> {
    const FRACTION_BITS: u64 = 52;
    const FRACTION: u64 = (1 << FRACTION_BITS) - 1;
    /// The weight of a significand's last bit is 2 to the exponent field less this.
    const BIAS: u64 = 1075;

    if !(-SECONDS_LIMIT..=SECONDS_LIMIT).contains(&seconds) {
        return None;
    }
    let bits = seconds.abs().to_bits();
    let exponent = bits >> FRACTION_BITS;
    let (significand, shift) = match exponent {
        0 => (bits & FRACTION, BIAS - 1),
        _ => (bits & FRACTION | (1 << FRACTION_BITS), BIAS - exponent),
    };
    let scaled = i128::from(significand) * i128::from(MICROS_PER_SECOND);
    let exact = match seconds.is_sign_negative() {
        true => -scaled,
        false => scaled,
    };
    // Within 2^73 either way, so that from a shift of 75 on everything rounds to 0 and 127 serves
    // for all.
    let shift = shift.min(127);
    let half = 1 << (shift - 1);
    // The shift rounds down, below zero too.
    Some(((exact + half) >> shift) as i64)
}

/// The double kept for an offset that an append has set: one division of exact operands.
pub fn quotient(micros: i64) -> f64 {
    micros as f64 / f64::from(MICROS_PER_SECOND)
}

#[cfg(test)]
mod tests {
    use super::*;

    #[test]
    fn halves_go_up() {
        // Odd multiples of 1/128 s are the only exact halves.
        for odd in [1_i64, 3, 5, 7, 9, 127, 129, 12_345_677, 127_999_999] {
            for odd in [odd, -odd] {
                let doubled = odd * 15_625; // twice the microseconds
                let above = (doubled + 1).div_euclid(2);
                assert_eq!(micros(odd as f64 / 128.0), Some(above), "{odd}/128");
            }
        }
    }

    #[test]
    fn halves_as_the_request_has_them() {
        assert_eq!(micros(0.0078125), Some(7813));
        assert_eq!(micros(0.0234375), Some(23438));
        assert_eq!(micros(-0.0078125), Some(-7812));
        assert_eq!(micros(-0.0234375), Some(-23437));
    }

    #[test]
    fn neighbours_of_a_half_go_to_the_nearer_number() {
        for (half, below) in [(0.0078125_f64, 7812), (0.0234375, 23437)] {
            assert_eq!(micros(half.next_down()), Some(below));
            assert_eq!(micros(half.next_up()), Some(below + 1));
            assert_eq!(micros((-half).next_down()), Some(-below - 1));
            assert_eq!(micros((-half).next_up()), Some(-below));
        }
    }

    #[test]
    fn the_limits_belong_and_their_neighbours_do_not() {
        assert_eq!(micros(SECONDS_LIMIT), Some(OFFERED_LIMIT));
        assert_eq!(micros(-SECONDS_LIMIT), Some(-OFFERED_LIMIT));
        assert_eq!(micros(SECONDS_LIMIT.next_up()), None);
        assert_eq!(micros((-SECONDS_LIMIT).next_down()), None);
        for bad in [f64::NAN, f64::INFINITY, f64::NEG_INFINITY, f64::MAX] {
            assert_eq!(micros(bad), None);
        }
    }

    #[test]
    fn tiny_doubles_give_zero() {
        for tiny in [0.0, -0.0, 5e-324, -5e-324, f64::MIN_POSITIVE, 4.9e-7] {
            assert_eq!(micros(tiny), Some(0));
        }
    }

    #[test]
    fn a_quotient_within_the_seconds_converts_back() {
        for micro in [
            0,
            1,
            -1,
            7812,
            999_999_999_999,
            OFFERED_LIMIT,
            -OFFERED_LIMIT,
        ] {
            assert_eq!(micros(quotient(micro)), Some(micro));
        }
    }
}
