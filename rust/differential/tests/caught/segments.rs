//! Readers of segments that are wrong in one thing each: `second`, put to another segment than the
//! one asked about, or with another list.

use second::{list_segment, Refusal, Row, SegmentTrack, FINEST_TIMESCALE};

/// What a reader does wrongly.
#[derive(Clone, Copy, Debug, PartialEq, Eq)]
pub enum WrongSegment {
    RefusesAll,
    ListsNothing,
    SameTimesAlways,
    RoundsTowardZero,
    ConvertsDurations,
    OffsetsUnsigned,
    OffsetsSigned,
    TakesDoubledTimes,
    TakesAnyVersion,
    TakesStrayBytes,
    StopsAfterTheFragment,
    RefusesLargeSizes,
    WrapsAround,
    CutsCounts,
    TimescaleFirst,
    ListBeforeFrames,
    ForgetsFlags,
    WritesWhenRefused,
    WritesPastTheCount,
}

impl WrongSegment {
    pub const ALL: [Self; 19] = [
        Self::RefusesAll,
        Self::ListsNothing,
        Self::SameTimesAlways,
        Self::RoundsTowardZero,
        Self::ConvertsDurations,
        Self::OffsetsUnsigned,
        Self::OffsetsSigned,
        Self::TakesDoubledTimes,
        Self::TakesAnyVersion,
        Self::TakesStrayBytes,
        Self::StopsAfterTheFragment,
        Self::RefusesLargeSizes,
        Self::WrapsAround,
        Self::CutsCounts,
        Self::TimescaleFirst,
        Self::ListBeforeFrames,
        Self::ForgetsFlags,
        Self::WritesWhenRefused,
        Self::WritesPastTheCount,
    ];

    /// The wrong answer.
    pub fn list(self, of: SegmentTrack, segment: &[u8], list: &mut [Row]) -> Result<usize, u32> {
        self.read(of, segment, list).map_err(Refusal::number)
    }

    fn read(self, of: SegmentTrack, segment: &[u8], list: &mut [Row]) -> Result<usize, Refusal> {
        let read = self.seen(segment);
        let result = list_segment(of, &read, list);
        match (self, result) {
            (Self::RefusesAll, _) => return Err(Refusal::Malformed),
            (Self::ListsNothing, Ok(_)) => return Ok(0),
            (Self::SameTimesAlways, Ok(count)) => {
                list[..count].iter_mut().for_each(|row| row[2] = 0);
            }
            (Self::RoundsTowardZero | Self::ConvertsDurations, Ok(count)) => {
                self.convert(of, segment, &mut list[..count]);
            }
            (Self::TakesDoubledTimes, Err(Refusal::Malformed)) => {
                return list_segment(of, &without_later(segment, b"tfdt"), list);
            }
            (Self::TakesStrayBytes, Err(Refusal::Malformed)) => {
                let shorter = segment.len().saturating_sub(segment.len() % 4);
                return list_segment(of, &segment[..shorter], list);
            }
            (Self::RefusesLargeSizes, Ok(_)) if segment.starts_with(&[0, 0, 0, 1]) => {
                return Err(Refusal::Malformed);
            }
            (Self::TimescaleFirst, _) if !(1..=FINEST_TIMESCALE).contains(&of.timescale) => {
                return Err(Refusal::OfferedLimits);
            }
            (Self::ListBeforeFrames, Err(Refusal::OfferedLimits)) if list.is_empty() => {
                return Err(Refusal::ShortList);
            }
            (Self::ForgetsFlags, Ok(count)) => {
                let flagged = i64::from(of.flags & 0x1_0000 == 0);
                list[..count].iter_mut().for_each(|row| row[4] = flagged);
            }
            (Self::WritesWhenRefused, Err(_)) if !list.is_empty() => list[0] = [0; 6],
            (Self::WritesPastTheCount, Ok(count)) if count < list.len() => list[count] = [0; 6],
            _ => {}
        }
        result
    }

    /// The segment as the reader takes it.
    fn seen(self, segment: &[u8]) -> Vec<u8> {
        match self {
            Self::OffsetsUnsigned => patched(segment, b"trun", |body| version(body, 1, 0)),
            Self::OffsetsSigned => patched(segment, b"trun", |body| version(body, 0, 1)),
            Self::TakesAnyVersion => patched(segment, b"tfhd", |body| version(body, 1, 0)),
            Self::StopsAfterTheFragment => up_to_the_fragment(segment),
            Self::WrapsAround => patched(segment, b"tfdt", wrap),
            // The high bytes of a count in a run without columns.
            Self::CutsCounts => patched(segment, b"trun", |body| {
                if body.len() >= 8 && body[2] & 0xf == 0 {
                    body[4..6].fill(0);
                }
            }),
            _ => segment.to_vec(),
        }
    }

    /// Converts the media times wrongly, as far as the finest timescale shows them.
    fn convert(self, of: SegmentTrack, segment: &[u8], rows: &mut [Row]) {
        let finest = SegmentTrack {
            timescale: FINEST_TIMESCALE,
            ..of
        };
        let mut media = rows.to_vec();
        if list_segment(finest, segment, &mut media).is_err() {
            return;
        }
        let cut = |time: i64| time * 1_000_000 / i64::from(of.timescale);
        for (row, [_, pts, dts, duration, ..]) in rows.iter_mut().zip(media) {
            match self {
                Self::ConvertsDurations => row[3] = cut(duration),
                _ => {
                    row[1..4].copy_from_slice(&[cut(pts), cut(dts), cut(pts + duration) - cut(pts)])
                }
            }
        }
    }
}

/// A segment with the body of every box of a type changed, as far as its end.
fn patched(segment: &[u8], kind: &[u8; 4], mut patch: impl FnMut(&mut [u8])) -> Vec<u8> {
    let mut patched = segment.to_vec();
    for place in places(segment, kind) {
        patch(&mut patched[place + 4..]);
    }
    patched
}

/// Where a type stands.
fn places(segment: &[u8], kind: &[u8; 4]) -> Vec<usize> {
    let windows = segment.windows(4).enumerate();
    let found = windows.filter(|(_, window)| window == kind);
    found.map(|(place, _)| place).collect()
}

/// Takes one version for another.
fn version(body: &mut [u8], from: u8, to: u8) {
    if let Some(version) = body.first_mut().filter(|version| **version == from) {
        *version = to;
    }
}

/// A decode time as it is when its product with 1,000,000 has lost what 64 bits do not hold.
fn wrap(body: &mut [u8]) {
    if let [1, _, _, _, time @ ..] = body {
        if let Some(time) = time.first_chunk_mut::<8>() {
            let wrapped = u64::from_be_bytes(*time).wrapping_mul(1_000_000) / 1_000_000;
            *time = wrapped.to_be_bytes();
        }
    }
}

/// A segment in which all boxes of a type but the first are of another.
fn without_later(segment: &[u8], kind: &[u8; 4]) -> Vec<u8> {
    let mut without = segment.to_vec();
    for place in places(segment, kind).into_iter().skip(1) {
        without[place..place + 4].copy_from_slice(b"free");
    }
    without
}

/// A segment up to the end of its first movie fragment.
fn up_to_the_fragment(segment: &[u8]) -> Vec<u8> {
    let Some(&start) = places(segment, b"moof").first() else {
        return segment.to_vec();
    };
    let size = segment[start.saturating_sub(4)..start].first_chunk();
    let size = size.map_or(0, |size| u32::from_be_bytes(*size)) as usize;
    let end = (start - 4).saturating_add(size).min(segment.len());
    match size {
        0..8 => segment.to_vec(),
        _ => segment[..end].to_vec(),
    }
}
