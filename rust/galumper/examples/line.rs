//! A survey line from bytes to the buffer: the frames of each segment are listed, and appended 64
//! at a time.

use std::error::Error;
use std::{env, fs};

use galumper::{
    Buffer, Fate, Kind, ListedFrame, Range, Refusal, SegmentTrack, BATCH, BATCH_FATES, RANGES,
};

/// The initialization segment has them: the ID in tkhd, the timescale in mdhd, the defaults in trex.
const OF: SegmentTrack = SegmentTrack {
    id: 1,
    track: 1,
    timescale: 12_800,
    duration: 0,
    size: 0,
    flags: 0,
};

struct Line {
    buffer: Box<Buffer>,
    fates: [Fate; BATCH_FATES],
    oldest: u32, // the seconds before this one are gone
}

impl Line {
    /// The store is full: the ten oldest seconds go.
    fn make_room(&mut self) -> Result<(), Refusal> {
        self.oldest += 10;
        let removed = self
            .buffer
            .remove(0.0, self.oldest.into(), &mut self.fates)?;
        let (last, oldest) = (self.buffer.head.last, self.oldest);
        println!("full after {last} frames: {removed} before second {oldest} go");
        Ok(())
    }

    /// Appends listed frames. Those that a full store did not accept are offered again when there
    /// is room.
    fn append(&mut self, mut frames: &[ListedFrame]) -> Result<(), Refusal> {
        while !frames.is_empty() {
            let rows = &frames[..frames.len().min(BATCH)];
            let batch = self.buffer.append_batch(rows, &mut self.fates)?;
            frames = &frames[batch.accepted..];
            match batch.stop {
                Some(Refusal::Full) => self.make_room()?,
                Some(refusal) => return Err(refusal),
                None => {}
            }
        }
        Ok(())
    }
}

fn main() -> Result<(), Box<dyn Error>> {
    let mut line = Line {
        buffer: galumper::create(&[Kind::VIDEO])?,
        fates: [Fate::default(); BATCH_FATES],
        oldest: 0,
    };
    let mut frames = [ListedFrame::default(); 1000];
    let mut time = 0; // each segment counts from 0: the timestamp offset puts it after those before
    for name in env::args().skip(1) {
        let count = galumper::list_segment(OF, &fs::read(name)?, &mut frames)?;
        line.buffer.set_offset(time as f64 / 1_000_000.0)?;
        line.append(&frames[..count])?;
        time += frames[..count].iter().map(|row| row.duration).sum::<i64>();
    }
    let head = &line.buffer.head;
    println!("{} frames, {} of them stored", head.last, head.nframes);
    let mut ranges = [Range::default(); RANGES];
    let held = line.buffer.track_ranges(1, &mut ranges)?;
    for range in &ranges[..held] {
        println!("held from {} to {}", range.start, range.end);
    }
    Ok(())
}
