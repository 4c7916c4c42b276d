//! The boxes at the top of a segment, told from the whole: what refusal 14 is held to. No
//! implementation takes part in it.

/// The most bytes of a movie fragment box that comes in lumps.
const LARGEST: u128 = 65_536;

/// The top of a segment.
#[derive(Clone, Debug, PartialEq, Eq)]
pub(super) struct Top {
    /// Where boxes begin, as far as they can be told, and the place after the last.
    pub(super) starts: Vec<usize>,
    /// How many bytes have come when the size is read of the first movie fragment that is too large.
    pub(super) large: Option<usize>,
}

impl Top {
    /// Of a whole segment.
    pub(super) fn of(segment: &[u8]) -> Self {
        let mut top = Self {
            starts: Vec::new(),
            large: None,
        };
        let mut at = 0;
        while let Some(rest) = segment.get(at..) {
            top.starts.push(at);
            let Some((header, kind, size)) = read(rest) else {
                break;
            };
            if size < header as u128 {
                break;
            }
            if kind == b"moof" && size > LARGEST {
                top.large = Some(at + header);
                break;
            }
            let Some(next) = usize::try_from(size)
                .ok()
                .and_then(|size| at.checked_add(size))
            else {
                break;
            };
            at = next;
        }
        top
    }
}

/// A box's header: its length, the type, and the size of the box.
fn read(bytes: &[u8]) -> Option<(usize, &[u8], u128)> {
    let (size, kind) = (number(bytes.get(..4)?), bytes.get(4..8)?);
    match size {
        1 => Some((16, kind, number(bytes.get(8..16)?))),
        _ => Some((8, kind, size)),
    }
}

fn number(bytes: &[u8]) -> u128 {
    let digits = bytes.iter().copied().map(u128::from);
    digits.fold(0, |number, digit| 256 * number + digit)
}

#[cfg(test)]
mod tests {
    use super::*;

    fn header(kind: &[u8; 4], size: u32) -> Vec<u8> {
        [&size.to_be_bytes(), &kind[..]].concat()
    }

    fn header_by_64(kind: &[u8; 4], size: u64) -> Vec<u8> {
        [header(kind, 1), size.to_be_bytes().to_vec()].concat()
    }

    fn top(parts: &[Vec<u8>]) -> (Vec<usize>, Option<usize>) {
        let Top { starts, large } = Top::of(&parts.concat());
        (starts, large)
    }

    #[test]
    fn where_boxes_begin() {
        assert_eq!(top(&[]), (vec![0], None));
        let free = [header(b"free", 11), vec![1, 2, 3]].concat();
        assert_eq!(top(&[free.clone(), free]), (vec![0, 11, 22], None));
        let large = header_by_64(b"free", 17);
        assert_eq!(
            top(&[large.clone(), vec![1], vec![0; 7]]),
            (vec![0, 17], None)
        );
        assert_eq!(top(&[large]), (vec![0], None));
    }

    #[test]
    fn where_a_size_is_too_large() {
        let free = header(b"free", 8);
        let at = |header: Vec<u8>| top(&[free.clone(), header]).1;
        assert_eq!(at(header(b"moof", 65_536)), None);
        assert_eq!(at(header(b"moof", 65_537)), Some(16));
        assert_eq!(at(header(b"MOOF", 65_537)), None);
        assert_eq!(at(header_by_64(b"moof", 65_536)), None);
        assert_eq!(at(header_by_64(b"moof", u64::MAX)), Some(24));
        assert_eq!(at(header_by_64(b"moof", u64::MAX)[..15].to_vec()), None);
        // Neither in another box nor after a size under its header.
        assert_eq!(
            at([header(b"moov", 16), header(b"moof", 65_537)].concat()),
            None
        );
        assert_eq!(
            at([header(b"moof", 7), header(b"moof", 65_537)].concat()),
            None
        );
        let stop = header_by_64(b"moof", 15);
        assert_eq!(at([stop, header(b"moof", 65_537)].concat()), None);
    }
}
