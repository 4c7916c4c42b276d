//! A console that seeks: it finds where to start decoding for an instant, and feeds the decoder without
//! a copy.

use std::collections::HashMap;
use std::error::Error;
use std::{env, fs};

use galumper::{feed, Fate, Feed, Kind, ListedFrame, SegmentTrack, BATCH, BATCH_FATES};

/// The initialization segment has them: the ID in tkhd, the timescale in mdhd, the defaults in trex.
const OF: SegmentTrack = SegmentTrack {
    id: 1,
    track: 1,
    timescale: 12_800,
    duration: 0,
    size: 0,
    flags: 0,
};

/// Where the media data of a segment begins, past the header of its box: with one track, the frames stand
/// there one after the other. A box whose size has 64 bits is not read here. Where none is found, every
/// frame's place overruns the segment, and what is fed is empty.
fn media_data(segment: &[u8]) -> usize {
    let mut at = 0;
    while let Some([a, b, c, d, name @ ..]) = segment.get(at..at + 8) {
        match (u32::from_be_bytes([*a, *b, *c, *d]), name) {
            (0..8, _) => break,
            (_, b"mdat") => return at + 8,
            (size, _) => at += size as usize,
        }
    }
    segment.len()
}

/// The decoder, which here tells how many bytes it is fed.
fn decode(bytes: &[u8]) {
    print!(" {}", bytes.len());
}

fn main() -> Result<(), Box<dyn Error>> {
    // The initialization bytes, then segments with one track of up to 64 frames.
    let files: Vec<Vec<u8>> = env::args()
        .skip(1)
        .map(fs::read)
        .collect::<Result<_, _>>()?;
    let (initialization, segments) = files.split_first().ok_or("no initialization bytes")?;
    let mut places = HashMap::new(); // by a frame's number: its segment, and the part of it
    let mut buffer = galumper::create(&[Kind::VIDEO])?;
    let mut frames = [ListedFrame::default(); BATCH];
    let mut fates = [Fate::default(); BATCH_FATES];

    for segment in segments {
        let count = galumper::list_segment(OF, segment, &mut frames)?;
        let mut end = media_data(segment);
        let numbers = buffer.head.last + 1..; // which the frames are about to have
        for (number, row) in numbers.zip(&frames[..count]) {
            let start = end;
            end += row.size as usize;
            places.insert(number, (segment, Feed::Part { start, end }));
        }
        let batch = buffer.append_batch(&frames[..count], &mut fates)?;
        batch.stop.map_or(Ok(()), Err)?;
        for fate in &fates[..batch.lines] {
            places.remove(&fate.number);
        }
    }

    for instant in [400_000, 530_000, 610_000] {
        let start = match buffer.seek(1, instant) {
            Ok(start) => start,
            Err(refusal) => {
                println!("{instant}: {refusal}");
                continue;
            }
        };
        let (target, flagged, count) = (start.target, start.flagged, start.count);
        print!("{instant}: frame {target}, {count} to decode from frame {flagged} on:");
        decode(feed(initialization, &[], Feed::Initialization));
        let first = buffer.tags.iter().position(|row| row[3] == flagged);
        let rows = &buffer.tags[first.expect("a stored frame")..];
        // Frames of other groups, which may stand between, are passed over.
        for row in rows.iter().filter(|row| row[4] == rows[0][4]).take(count) {
            let (segment, part) = places[&row[3]];
            decode(feed(initialization, segment, part));
        }
        println!(" bytes");
    }
    Ok(())
}
