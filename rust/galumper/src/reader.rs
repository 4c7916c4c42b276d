//! The lump reader as numbers, laid out as in `include/galumper.h`.

/// The reader of a segment that comes in lumps: how far it has come. The default is a fresh one. It
/// belongs with what is kept of the segment in the lump buffer: both together may be copied and kept,
/// and gone on with later. Any numbers may stand in it: a reader to which no bytes lead has the call
/// refused. No byte of it is padding.
///
/// ```
/// use galumper::{ListedFrame, LumpReader, Refusal, SegmentTrack, LUMP};
///
/// # fn main() -> Result<(), Refusal> {
/// let segment = b"\0\0\0\x44moof\0\0\0\x3ctraf\
///     \0\0\0\x10tfhd\0\0\0\0\0\0\0\x01\
///     \0\0\0\x10tfdt\0\0\0\0\0\0\0\x05\
///     \0\0\0\x14trun\0\0\x02\0\0\0\0\x01\0\0\0\x09\
///     \0\0\0\x11mdatlump data";
/// let of = SegmentTrack { id: 1, track: 1, timescale: 25, duration: 1, size: 0, flags: 0 };
/// let mut reader = LumpReader::default();
/// let (mut buffer, mut list) = (vec![0; LUMP], [ListedFrame::default(); 64]);
/// for lump in segment.chunks(7) {
///     reader.take_lump(of, &mut buffer, lump, false, &mut [])?;
/// }
/// let count = reader.take_lump(of, &mut buffer, &[], true, &mut list)?;
/// assert_eq!((count, list[0].pts, list[0].size), (1, 200_000, 9));
/// assert_eq!(reader, LumpReader::default()); // ready for the next segment
/// # Ok(())
/// # }
/// ```
#[repr(C)]
#[derive(Clone, Copy, Debug, Default, PartialEq, Eq)]
pub struct LumpReader {
    /// The bytes met of a box's header, then zeros.
    pub head: [u8; 16],
    /// The bytes of a box's body still to come.
    pub left: u64,
    /// The bytes of the movie fragment's body that stand in the lump buffer, from its start.
    pub kept: usize,
    /// How many bytes of the header were met.
    pub seen: usize,
    /// 0: in a header, or between two boxes; 1: in a body that is passed over; 2: in the body that is
    /// kept; 3: past a size under its header, where no box can be told any more.
    pub phase: u32,
    /// The movie fragments met, two for more.
    pub fragments: u32,
}

// No padding: the struct has the bytes of its numbers.
const _: () = assert!(size_of::<LumpReader>() == 16 + 3 * 8 + 2 * 4);
