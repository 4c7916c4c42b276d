//! A radio link: the reader and the buffer that go from call to call, watched.

use galumper::{ListedFrame, LumpReader, Refusal, SegmentTrack, LUMP};

use crate::boxes::OF;

/// Places enough for every segment here.
pub const PLACES: usize = 5;

/// What no call writes.
const MARK: ListedFrame = ListedFrame {
    track: i64::MIN,
    pts: i64::MIN,
    dts: i64::MIN,
    duration: i64::MIN,
    flagged: i64::MIN,
    size: i64::MIN,
};

/// What stands in a buffer past the bytes that a call may write to.
const PAST: [u8; 3] = [0xa5; 3];

#[derive(Clone)]
pub struct Link {
    pub of: SegmentTrack,
    pub reader: LumpReader,
    pub buffer: Vec<u8>,
}

impl Link {
    /// With a fresh reader, and a buffer that holds anything.
    pub fn fresh() -> Self {
        Self {
            of: OF,
            reader: LumpReader::default(),
            buffer: [vec![0x5a; LUMP], PAST.to_vec()].concat(),
        }
    }

    /// A call that is lent so many bytes of the buffer and so many places. It touches nothing past the
    /// count and the bytes that are kept; the end leaves the buffer, a lump of no bytes and a refusal
    /// leave everything.
    pub fn take(
        &mut self,
        lump: &[u8],
        last: bool,
        bytes: usize,
        places: usize,
    ) -> Result<Vec<ListedFrame>, Refusal> {
        let (reader, buffer) = (self.reader, self.buffer.clone());
        let mut list = vec![MARK; places];
        let lent = &mut self.buffer[..bytes];
        let answer = self.reader.take_lump(self.of, lent, lump, last, &mut list);
        let still = answer.is_err() || last || lump.is_empty();
        let kept = if still { 0 } else { self.reader.kept };
        assert!(self.buffer[kept..] == buffer[kept..], "the buffer");
        assert_eq!(self.buffer[LUMP..], PAST);
        let due = match answer {
            Ok(_) if last => LumpReader::default(),
            Ok(_) if !lump.is_empty() => self.reader,
            _ => reader,
        };
        assert_eq!(self.reader, due);
        let count = answer.unwrap_or(0);
        assert!(list[count..].iter().all(|row| *row == MARK), "the list");
        list.truncate(count);
        answer.map(|_| list)
    }

    /// A lump that is taken: nothing is listed.
    #[track_caller]
    pub fn more(&mut self, lump: &[u8]) {
        assert_eq!(self.take(lump, false, LUMP, PLACES), Ok(vec![]));
    }

    /// The last lump, or none.
    pub fn end(&mut self, lump: &[u8]) -> Result<Vec<ListedFrame>, Refusal> {
        self.take(lump, true, LUMP, PLACES)
    }
}

/// What a whole segment lists.
pub fn whole(of: SegmentTrack, segment: &[u8]) -> Result<Vec<ListedFrame>, Refusal> {
    let mut list = [MARK; PLACES];
    let count = galumper::list_segment(of, segment, &mut list)?;
    Ok(list[..count].to_vec())
}
