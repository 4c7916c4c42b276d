//! The words of a script: numbers, flags, modes, doubles and bytes.

use second::Mode;

/// A whole number in decimal.
pub(crate) fn whole<N: TryFrom<i128>>(word: &str) -> Option<N> {
    let digits = word.strip_prefix('-').unwrap_or(word);
    if !digits.bytes().all(|digit| digit.is_ascii_digit()) {
        return None;
    }
    N::try_from(word.parse().ok()?).ok()
}

/// A track, a kind or a count of frames: a number beyond 32 bits names none that is there, and is read
/// as the largest.
pub(crate) fn natural(word: &str) -> Option<u32> {
    up_to(word, u32::MAX)
}

/// A place in bytes, likewise.
pub(crate) fn place(word: &str) -> Option<usize> {
    up_to(word, usize::MAX)
}

fn up_to<N: TryFrom<i128>>(word: &str, largest: N) -> Option<N> {
    let digits = !word.is_empty() && word.bytes().all(|digit| digit.is_ascii_digit());
    whole(word).or_else(|| digits.then_some(largest))
}

/// `1` or `0`.
pub(crate) fn flag(word: &str) -> Option<bool> {
    match word {
        "1" => Some(true),
        "0" => Some(false),
        _ => None,
    }
}

/// A mode by its name.
pub(crate) fn mode(word: &str) -> Option<Mode> {
    match word {
        "segments" => Some(Mode::Segments),
        "sequence" => Some(Mode::Sequence),
        _ => None,
    }
}

/// A double: its bits, one of the words for what is not finite, or a plain decimal.
pub(crate) fn seconds(word: &str) -> Option<f64> {
    if let Some(digits) = word.strip_prefix("0x") {
        let hexadecimal = digits.len() == 16 && digits.bytes().all(|d| d.is_ascii_hexdigit());
        return hexadecimal
            .then(|| u64::from_str_radix(digits, 16).ok())?
            .map(f64::from_bits);
    }
    match word {
        "inf" => Some(f64::INFINITY),
        "-inf" => Some(f64::NEG_INFINITY),
        "nan" => Some(f64::NAN),
        _ => is_decimal(word.strip_prefix('-').unwrap_or(word)).then(|| word.parse().ok())?,
    }
}

/// Whether a word is a decimal as scripts have it: digits, and after a point up to 22 more, all of
/// them together a number below 10^15.
fn is_decimal(word: &str) -> bool {
    let (whole, fraction) = word.split_once('.').unwrap_or((word, "0"));
    let digits = format!("{whole}{fraction}");
    !whole.is_empty()
        && (1..=22).contains(&fraction.len())
        && digits.bytes().all(|digit| digit.is_ascii_digit())
        && digits.trim_start_matches('0').len() <= 15
}

/// Bytes as an even number of lower-case hexadecimal digits, or `-` for none.
pub(crate) fn bytes(word: &str) -> Option<Vec<u8>> {
    if word == "-" {
        return Some(Vec::new());
    }
    let (pairs, rest) = word.as_bytes().as_chunks();
    if word.is_empty() || !rest.is_empty() {
        return None;
    }
    let byte = |&[high, low]: &[u8; 2]| Some(16 * digit(high)? + digit(low)?);
    pairs.iter().map(byte).collect()
}

/// What a lower-case hexadecimal digit stands for.
fn digit(digit: u8) -> Option<u8> {
    match digit {
        b'0'..=b'9' => Some(digit - b'0'),
        b'a'..=b'f' => Some(digit - b'a' + 10),
        _ => None,
    }
}

#[cfg(test)]
mod tests {
    use super::*;

    #[test]
    fn whole_numbers() {
        assert_eq!(whole("-9223372036854775808"), Some(i64::MIN));
        assert_eq!(whole("4294967295"), Some(u32::MAX));
        assert_eq!(whole("-0"), Some(0_u32));
        assert_eq!(whole("007"), Some(7_usize));
        for bad in ["", "-", "+1", "-1", "4294967296", "1.0", "1_0", "--1"] {
            assert_eq!(whole::<u32>(bad), None, "{bad}");
        }
    }

    #[test]
    fn numbers_beyond_all_tracks() {
        assert_eq!(natural("4294967295"), Some(u32::MAX));
        assert_eq!(natural("99999999999999999999"), Some(u32::MAX));
        assert_eq!(natural(&"9".repeat(50)), Some(u32::MAX));
        for bad in ["", "-", "-1", "9x"] {
            assert_eq!(natural(bad), None, "{bad}");
        }
    }

    #[test]
    fn doubles_in_every_form() {
        assert_eq!(seconds("0x3ff0000000000000"), Some(1.0));
        assert_eq!(seconds("-inf"), Some(f64::NEG_INFINITY));
        assert!(seconds("nan").is_some_and(f64::is_nan));
        assert_eq!(seconds("0.00015"), Some(0.00015));
        assert_eq!(seconds("-1000000"), Some(-1_000_000.0));
        assert_eq!(seconds("0.0000000000000000000001"), Some(1e-22));
        assert_eq!(seconds("00012.5"), Some(12.5));
        for bad in [
            "",
            "-",
            ".",
            "1e3",
            "+1",
            "0x3ff",
            "infinity",
            ".5",
            "5.",
            "1.0000000000000000",
            "0.00000000000000000000001",
            "1.2.3",
            "0x+ff0000000000000",
        ] {
            assert_eq!(seconds(bad), None, "{bad}");
        }
    }
}
