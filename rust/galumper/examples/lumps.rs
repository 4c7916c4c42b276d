//! Segments over the radio link: each comes in lumps, cut anywhere, and its frames are listed when its
//! end is told.

use std::{env, fs, io};

use galumper::{ListedFrame, LumpReader, Refusal, SegmentTrack, LUMP};

/// The initialization segment has them: the ID in tkhd, the timescale in mdhd, the defaults in trex.
const OF: SegmentTrack = SegmentTrack {
    id: 1,
    track: 1,
    timescale: 12_800,
    duration: 0,
    size: 0,
    flags: 0,
};

/// A segment that comes over the link.
struct Incoming {
    reader: LumpReader,
    buffer: Vec<u8>,
    frames: Vec<ListedFrame>,
}

impl Incoming {
    /// Takes a lump. An end whose frames have too few places has taken nothing: it is told again, with a
    /// longer list.
    fn take(&mut self, lump: &[u8], last: bool) -> Result<usize, Refusal> {
        loop {
            let (buffer, list) = (&mut self.buffer, &mut self.frames);
            let answer = self.reader.take_lump(OF, buffer, lump, last, list);
            if answer != Err(Refusal::ShortList) {
                return answer;
            }
            list.resize(2 * list.len(), ListedFrame::default());
        }
    }

    /// Takes a segment as the link hands it over, up to its end or a refusal.
    fn receive<'l>(&mut self, link: impl Iterator<Item = &'l [u8]>) -> Result<usize, Refusal> {
        for lump in link {
            self.take(lump, false)?;
        }
        self.take(&[], true)
    }
}

fn main() -> io::Result<()> {
    assert!(galumper::matches()); // no buffer is created here, which would ask it
    let mut incoming = Incoming {
        reader: LumpReader::default(),
        buffer: vec![0; LUMP],
        frames: vec![ListedFrame::default(); 16],
    };
    for name in env::args().skip(1) {
        let segment = fs::read(name)?;
        match incoming.receive(segment.chunks(188)) {
            Ok(count) => {
                let bytes: i64 = incoming.frames[..count].iter().map(|row| row.size).sum();
                println!("{count} frames of {bytes} bytes");
            }
            Err(refusal) => {
                incoming.reader = LumpReader::default(); // the next segment begins anew
                println!("passed over: {refusal}");
            }
        }
    }
    Ok(())
}
