//! Readers of lumps that are wrong in one thing each: `second` with something laid over it, before the
//! call or after it.

use second::{
    list_segment, take_lump, LumpFragment, LumpPlace, LumpReader, Refusal, Row, SegmentTrack,
    LUMP_BYTES,
};

/// What a reader does wrongly.
#[derive(Clone, Copy, Debug, PartialEq, Eq)]
pub enum WrongLump {
    /// Nothing.
    Right,
    RefusesAll,
    ListsNothing,
    ListsBeforeTheEnd,
    RefusesBeforeTheEnd,
    JudgesTimescalesEarly,
    AsksAsAtFirst,
    ListsTheLastLumpAlone,
    EndsWithoutTheLump,
    TakesTheFirstOfTwo,
    LosesCutHeaders,
    LosesCutSizes,
    CountsIn32Bits,
    KeepsTheWholeLump,
    EmptyIsTheEnd,
    EmptyBeginsAnew,
    TakesLongLumps,
    RefusesTheLongestLump,
    TakesShortBuffers,
    RefusesLongerBuffers,
    LargeBeforeLengths,
    LargeAtTheEnd,
    LargeWithTheBody,
    LargestIsTooLarge,
    OneMoreIsTaken,
    LargeFirstOnly,
    LargeBy32BitsOnly,
    LargeAfterAStop,
    TakesWhatIsBeforeTheLarge,
    BeginsAnewWhenRefused,
    StaysWhenListed,
    TakesDamagedReaders,
    WritesTheBufferWhenRefused,
    WritesTheLastLumpWhenRefused,
    WritesPastTheBuffer,
    WritesTheListEarly,
    WritesTheListWhenRefused,
    WritesPastTheCount,
}

/// The reader of a wrong build: the right one, and what some of the wrong ones know besides.
#[derive(Clone, Debug, Default, PartialEq)]
pub struct WrongReader {
    pub right: LumpReader,
    /// The bytes of the segment so far.
    taken: Vec<u8>,
    /// What was asked with the first lump.
    first: Option<SegmentTrack>,
}

impl WrongReader {
    pub fn of(right: LumpReader) -> Self {
        Self {
            right,
            ..Self::default()
        }
    }
}

/// What a call is lent.
pub struct Lent<'l> {
    pub of: SegmentTrack,
    pub buffer: &'l mut [u8],
    pub lump: &'l [u8],
    pub last: bool,
    pub list: &'l mut [Row],
}

impl Lent<'_> {
    /// The right call.
    fn take(&mut self, reader: &mut LumpReader) -> Result<usize, Refusal> {
        take_lump(
            self.of,
            reader,
            self.buffer,
            self.lump,
            self.last,
            self.list,
        )
    }
}

impl WrongLump {
    pub const ALL: [Self; 37] = [
        Self::RefusesAll,
        Self::ListsNothing,
        Self::ListsBeforeTheEnd,
        Self::RefusesBeforeTheEnd,
        Self::JudgesTimescalesEarly,
        Self::AsksAsAtFirst,
        Self::ListsTheLastLumpAlone,
        Self::EndsWithoutTheLump,
        Self::TakesTheFirstOfTwo,
        Self::LosesCutHeaders,
        Self::LosesCutSizes,
        Self::CountsIn32Bits,
        Self::KeepsTheWholeLump,
        Self::EmptyIsTheEnd,
        Self::EmptyBeginsAnew,
        Self::TakesLongLumps,
        Self::RefusesTheLongestLump,
        Self::TakesShortBuffers,
        Self::RefusesLongerBuffers,
        Self::LargeBeforeLengths,
        Self::LargeAtTheEnd,
        Self::LargeWithTheBody,
        Self::LargestIsTooLarge,
        Self::OneMoreIsTaken,
        Self::LargeFirstOnly,
        Self::LargeBy32BitsOnly,
        Self::LargeAfterAStop,
        Self::TakesWhatIsBeforeTheLarge,
        Self::BeginsAnewWhenRefused,
        Self::StaysWhenListed,
        Self::TakesDamagedReaders,
        Self::WritesTheBufferWhenRefused,
        Self::WritesTheLastLumpWhenRefused,
        Self::WritesPastTheBuffer,
        Self::WritesTheListEarly,
        Self::WritesTheListWhenRefused,
        Self::WritesPastTheCount,
    ];

    /// The wrong answer.
    pub fn take(self, reader: &mut WrongReader, mut lent: Lent) -> Result<usize, u32> {
        let before = reader.clone();
        self.ask(&before, &mut lent);
        if let Some(result) = self.instead(&before, &mut lent) {
            return result.map_err(Refusal::number);
        }
        let result = lent.take(&mut reader.right);
        match result {
            Ok(_) if lent.last => *reader = WrongReader::default(),
            Ok(_) if !lent.lump.is_empty() => {
                reader.first = before.first.or(Some(lent.of));
                reader.taken.extend(lent.lump);
            }
            _ => {}
        }
        let result = self.after(&before, reader, &mut lent, result);
        result.map_err(Refusal::number)
    }

    /// Changes what the call is lent.
    fn ask(self, before: &WrongReader, lent: &mut Lent) {
        match self {
            Self::AsksAsAtFirst => lent.of = before.first.unwrap_or(lent.of),
            Self::EndsWithoutTheLump if lent.last => lent.lump = &[],
            _ => {}
        }
    }

    /// The answer of a wrong build that does not make the right call; nothing where it does.
    fn instead(self, before: &WrongReader, lent: &mut Lent) -> Option<Result<usize, Refusal>> {
        let whole = || [&before.taken[..], lent.lump].concat();
        let empty = lent.lump.is_empty() && !lent.last;
        match self {
            Self::RefusesAll if lent.last => Some(Err(Refusal::Malformed)),
            Self::ListsNothing if lent.last => {
                let mut list = lent.list.to_vec();
                let listed = list_segment(lent.of, &whole(), &mut list);
                listed.is_ok().then_some(Ok(0))
            }
            Self::ListsBeforeTheEnd if !lent.last && !lent.lump.is_empty() => {
                let listed = list_segment(lent.of, &whole(), lent.list);
                let large = fragments(&whole()).iter().any(|size| *size > LUMP_BYTES);
                (listed.is_ok() && !large).then_some(listed)
            }
            Self::JudgesTimescalesEarly if lent.of.timescale == 0 => {
                Some(Err(Refusal::OfferedLimits))
            }
            Self::ListsTheLastLumpAlone if lent.last => {
                Some(list_segment(lent.of, lent.lump, lent.list))
            }
            Self::EmptyIsTheEnd if empty && !before.taken.is_empty() => {
                Some(list_segment(lent.of, &whole(), lent.list))
            }
            Self::TakesLongLumps if lent.lump.len() == LUMP_BYTES + 1 => Some(Ok(0)),
            Self::RefusesTheLongestLump if lent.lump.len() == LUMP_BYTES => {
                Some(Err(Refusal::LentSize))
            }
            Self::TakesShortBuffers if lent.buffer.len() == LUMP_BYTES - 1 => Some(Ok(0)),
            Self::RefusesLongerBuffers if lent.buffer.len() > LUMP_BYTES => {
                Some(Err(Refusal::LentSize))
            }
            Self::LargeBeforeLengths => {
                let (mut reader, mut buffer) = (before.right, vec![0; LUMP_BYTES]);
                let result =
                    take_lump(lent.of, &mut reader, &mut buffer, lent.lump, false, &mut []);
                let large = result == Err(Refusal::LargeFragment);
                large.then_some(Err(Refusal::LargeFragment))
            }
            Self::LargestIsTooLarge => {
                let sizes = fragments(&whole());
                let largest = sizes.last() == Some(&LUMP_BYTES);
                let new = sizes.len() > fragments(&before.taken).len();
                (largest && new).then_some(Err(Refusal::LargeFragment))
            }
            Self::LargeAfterAStop if before.right.place == LumpPlace::Lost => {
                let whole = whole();
                let mut headers = whole.windows(8);
                let large = headers.any(|header| header[..2] != [0; 2] && header[4..] == *b"moof");
                large.then_some(Err(Refusal::LargeFragment))
            }
            Self::TakesDamagedReaders => {
                let mut reader = before.right;
                let judged = take_lump(lent.of, &mut reader, &mut [], &[], false, &mut []);
                (judged == Err(Refusal::IllFormed)).then_some(Ok(0))
            }
            _ => None,
        }
    }

    /// What a wrong build makes of the right call's answer.
    fn after(
        self,
        before: &WrongReader,
        reader: &mut WrongReader,
        lent: &mut Lent,
        result: Result<usize, Refusal>,
    ) -> Result<usize, Refusal> {
        let several = reader.right.fragment == LumpFragment::Several;
        let place = &mut reader.right.place;
        match (self, result) {
            (_, Err(Refusal::LargeFragment)) if self.takes_large(before, lent) => return Ok(0),
            (Self::TakesWhatIsBeforeTheLarge, Err(Refusal::LargeFragment)) => {
                (lent.lump, lent.last) = (&lent.lump[..lent.lump.len() / 2], false);
                let _ = lent.take(&mut reader.right);
            }
            (Self::RefusesBeforeTheEnd, Ok(_)) if several => return Err(Refusal::Malformed),
            (Self::TakesTheFirstOfTwo, Ok(_)) if several => {
                reader.right.fragment = before.right.fragment;
            }
            (Self::LosesCutHeaders, Ok(_)) => match place {
                LumpPlace::Header(cut) if cut.count < 8 => *place = LumpPlace::default(),
                _ => {}
            },
            (Self::LosesCutSizes, Ok(_)) => match place {
                LumpPlace::Header(cut) if cut.count > 8 => *place = LumpPlace::default(),
                _ => {}
            },
            (Self::CountsIn32Bits, Ok(_)) => match place {
                LumpPlace::Body { left, .. } if *left as u32 == 0 => *place = LumpPlace::default(),
                LumpPlace::Body { left, .. } => *left = u64::from(*left as u32),
                _ => {}
            },
            (Self::KeepsTheWholeLump, Ok(_)) if !lent.last => {
                let length = lent.lump.len().min(LUMP_BYTES);
                lent.buffer[..length].copy_from_slice(&lent.lump[..length]);
            }
            (Self::EmptyBeginsAnew, Ok(_)) if lent.lump.is_empty() => {
                *reader = WrongReader::default();
            }
            (Self::BeginsAnewWhenRefused, Err(_)) => *reader = WrongReader::default(),
            (Self::StaysWhenListed, Ok(_)) if lent.last => *reader = before.clone(),
            (Self::WritesTheBufferWhenRefused, Err(_)) if !lent.buffer.is_empty() => {
                lent.buffer[0] ^= 1;
            }
            (Self::WritesTheLastLumpWhenRefused, Err(Refusal::ShortList)) => {
                lent.buffer[..lent.lump.len()].copy_from_slice(lent.lump);
            }
            (Self::WritesPastTheBuffer, Ok(_)) if lent.buffer.len() > LUMP_BYTES => {
                lent.buffer[LUMP_BYTES] = 0;
            }
            (Self::WritesTheListEarly, Ok(_)) if !lent.last && !lent.list.is_empty() => {
                lent.list[0] = [0; 6];
            }
            (Self::WritesTheListWhenRefused, Err(_)) if !lent.list.is_empty() => {
                lent.list[0] = [0; 6];
            }
            (Self::WritesPastTheCount, Ok(count)) if count < lent.list.len() => {
                lent.list[count] = [0; 6];
            }
            _ => {}
        }
        result
    }

    /// Whether a movie fragment that is too large is let pass.
    fn takes_large(self, before: &WrongReader, lent: &Lent) -> bool {
        let whole = [&before.taken[..], lent.lump].concat();
        let size = fragments(&whole).last().copied();
        match self {
            Self::LargeAtTheEnd => !lent.last,
            // Its size is read by the lump's last byte.
            Self::LargeWithTheBody => fragments(&whole[..whole.len() - 1]).last() != size.as_ref(),
            Self::OneMoreIsTaken => size == Some(LUMP_BYTES + 1),
            Self::LargeFirstOnly => fragments(&whole).len() > 1,
            Self::LargeBy32BitsOnly => size.is_some_and(|size| size > u32::MAX as usize),
            _ => false,
        }
    }
}

/// The sizes of a segment's movie fragments, as far as boxes can be told.
fn fragments(segment: &[u8]) -> Vec<usize> {
    let (mut sizes, mut rest) = (Vec::new(), segment);
    while let Some((&[a, b, c, d, ref kind @ ..], after)) = rest.split_first_chunk::<8>() {
        let size = match (u32::from_be_bytes([a, b, c, d]), after.first_chunk()) {
            (1, None) => break,
            (1, Some(size)) => u64::from_be_bytes(*size) as usize,
            (size, _) => size as usize,
        };
        if kind == b"moof" {
            sizes.push(size);
        }
        rest = match rest.get(size..) {
            Some(rest) if size >= 8 => rest,
            _ => break,
        };
    }
    sizes
}
