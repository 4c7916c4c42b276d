//! Document 02, No. 5, rule by rule, each by a small segment made by hand and cut.

#[path = "../segment/boxes.rs"]
mod boxes;
mod conditions;
mod cuts;
mod ends;
mod large;
mod refusals;

use boxes::{boxed, fragment, large, run, tfdt, tfhd, traf};
use second::{list_segment, take_lump, LumpReader, Refusal, Row, SegmentTrack, LUMP_BYTES};

/// Track 1 of the segment, listed as track 7; a unit is a millisecond.
const OF: SegmentTrack = SegmentTrack {
    id: 1,
    track: 7,
    timescale: 1000,
    duration: 40,
    size: 9,
    flags: 0,
};

const MARK: Row = [i64::MIN; 6];

/// Places enough for every segment here.
const PLACES: usize = 100;

/// What is past the bytes of a buffer that a call may write to.
const PAST: [u8; 3] = [0xa5; 3];

/// A radio link: a reader, and the buffer that is lent from call to call.
struct Link {
    of: SegmentTrack,
    reader: LumpReader,
    buffer: Vec<u8>,
}

impl Link {
    /// With a fresh reader, and a buffer that holds what some segment before left in it.
    fn fresh() -> Self {
        Self {
            of: OF,
            reader: LumpReader::default(),
            buffer: [vec![0x5a; LUMP_BYTES], PAST.to_vec()].concat(),
        }
    }

    /// Lends so many places and bytes of the buffer; checks that nothing is touched past the count
    /// and the bytes that may be written, and on a refusal nothing at all.
    fn take(
        &mut self,
        lump: &[u8],
        last: bool,
        places: usize,
        bytes: usize,
    ) -> Result<Vec<Row>, Refusal> {
        let before = (self.reader, self.buffer.clone());
        let mut list = vec![MARK; places];
        let buffer = &mut self.buffer[..bytes];
        let result = take_lump(self.of, &mut self.reader, buffer, lump, last, &mut list);
        let count = result.unwrap_or(0);
        assert!(list[count..].iter().all(|row| *row == MARK), "touched");
        assert_eq!(self.buffer[LUMP_BYTES..], PAST);
        match result {
            Ok(_) if last => assert_eq!(self.reader, LumpReader::default(), "not fresh"),
            Ok(_) => assert_eq!(count, 0, "listed before the end"),
            Err(_) => assert!(before == (self.reader, self.buffer.clone()), "moved"),
        }
        result.map(|_| list[..count].to_vec())
    }

    /// A lump that is taken.
    #[track_caller]
    fn more(&mut self, lump: &[u8]) {
        let taken = self.take(lump, false, PLACES, LUMP_BYTES);
        assert_eq!(taken, Ok(vec![]));
    }

    /// A lump without the end that is refused.
    #[track_caller]
    fn refused(&mut self, refusal: Refusal, lump: &[u8]) {
        let taken = self.take(lump, false, PLACES, LUMP_BYTES);
        assert_eq!(taken, Err(refusal));
    }

    /// The last lump, or none.
    fn end(&mut self, lump: &[u8]) -> Result<Vec<Row>, Refusal> {
        self.take(lump, true, PLACES, LUMP_BYTES)
    }
}

/// What the whole segment lists.
fn whole(of: SegmentTrack, segment: &[u8]) -> Result<Vec<Row>, Refusal> {
    let mut list = [MARK; PLACES];
    let result = list_segment(of, segment, &mut list);
    result.map(|count| list[..count].to_vec())
}

/// A movie fragment with two samples of track 1, listed as [`PLAIN`].
fn plain() -> Vec<u8> {
    fragment(&[plain_traf()])
}

fn plain_traf() -> Vec<u8> {
    traf(&[tfhd(0, &[1]), tfdt(0), run(0, 0, &[2])])
}

const PLAIN: [Row; 2] = [[7, 0, 0, 40_000, 1, 9], [7, 40_000, 40_000, 40_000, 1, 9]];

/// A segment with something before its movie fragment, and media data with a 64-bit size after it.
fn recorded() -> Vec<u8> {
    [
        boxed(b"styp", b"msdh"),
        plain(),
        large(b"mdat", &[0, 0, 0, 8, b'm', b'o', b'o', b'f']),
    ]
    .concat()
}

/// A movie fragment of so many bytes, which lists [`PLAIN`].
fn sized(bytes: usize) -> Vec<u8> {
    let plain = plain_traf();
    let free = boxed(b"free", &vec![0; bytes - 8 - plain.len() - 8]);
    fragment(&[plain, free])
}

/// The same with a 64-bit size.
fn sized_by_64(bytes: usize) -> Vec<u8> {
    let plain = plain_traf();
    let free = boxed(b"free", &vec![0; bytes - 16 - plain.len() - 8]);
    large(b"moof", &[plain, free].concat())
}
