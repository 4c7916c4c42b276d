//! Reads a media segment of the recorder from a file, and appends its frames.

use std::error::Error;
use std::{env, fs};

use galumper::{Fate, Kind, ListedFrame, Offered, Range, SegmentTrack, FATES, RANGES};

/// A listed frame as it is offered.
fn offered(row: &ListedFrame) -> Offered {
    Offered {
        track: row.track as u32,
        flagged: row.flagged == 1,
        duration: row.duration as u32,
        pts: row.pts,
        dts: row.dts,
    }
}

fn main() -> Result<(), Box<dyn Error>> {
    let name = env::args().nth(1);
    let segment = fs::read(name.ok_or("the name of a media segment is missing")?)?;
    let mut buffer = galumper::create(&[Kind::VIDEO])?;
    let mut fates = [Fate::default(); FATES];
    let mut ranges = [Range::default(); RANGES];
    let mut frames = [ListedFrame::default(); 1000];

    // The initialization segment has them: the ID in tkhd, the timescale in mdhd, the defaults in
    // trex.
    let of = SegmentTrack {
        id: 1,
        track: 1,
        timescale: 12_800,
        duration: 0,
        size: 0,
        flags: 0,
    };
    let count = galumper::list_segment(of, &segment, &mut frames)?;
    for row in &frames[..count] {
        buffer.append(offered(row), &mut fates)?;
    }
    let bytes: i64 = frames[..count].iter().map(|row| row.size).sum();
    println!("{count} frames of {bytes} bytes");
    let held = buffer.track_ranges(1, &mut ranges)?;
    for range in &ranges[..held] {
        println!("held from {} to {}", range.start, range.end);
    }
    Ok(())
}
