//! The timed segments as files, so that other programs can list their frames: `init.mp4`, and for
//! each count of frames `N.m4s`, which is the segment, and `N.mp4`, the two of them joined.

use std::fs;
use std::io;
use std::path::Path;

use crate::segment::{boxed, full, segment, words, TIMESCALE, TRACK};

/// The pictures, in pixels.
const WIDTH: u32 = 640;
const HEIGHT: u32 = 360;

/// A picture shown as it is.
const MATRIX: [u32; 9] = [0x1_0000, 0, 0, 0, 0x1_0000, 0, 0, 0, 0x4000_0000];

/// Writes the files into a folder.
pub fn write(folder: &Path, counts: &[u32]) -> io::Result<()> {
    fs::create_dir_all(folder)?;
    let init = initialization();
    fs::write(folder.join("init.mp4"), &init)?;
    for count in counts {
        let segment = segment(*count);
        fs::write(folder.join(format!("{count}.m4s")), &segment)?;
        let joined = [&init[..], &segment].concat();
        fs::write(folder.join(format!("{count}.mp4")), joined)?;
    }
    Ok(())
}

/// What a file of fragments begins with: one track of video, and no samples of it.
fn initialization() -> Vec<u8> {
    let ftyp = boxed(b"ftyp", &[b"iso6\0\0\0\0iso6mp41"]);
    let head = [0, 0, 1000, 0, 0x1_0000, 0x100_0000, 0, 0];
    let tail = [0, 0, 0, 0, 0, 0, TRACK.id + 1];
    let mvhd = full(b"mvhd", 0, 0, &[&head[..], &MATRIX, &tail].concat());
    let defaults = [TRACK.id, 1, TRACK.duration, TRACK.size, TRACK.flags];
    let mvex = boxed(b"mvex", &[&full(b"trex", 0, 0, &defaults)]);
    [ftyp, boxed(b"moov", &[&mvhd, &track(), &mvex])].concat()
}

fn track() -> Vec<u8> {
    let head = [0, 0, TRACK.id, 0, 0, 0, 0, 0, 0];
    let tail = [WIDTH << 16, HEIGHT << 16];
    let tkhd = full(b"tkhd", 0, 0x7, &[&head[..], &MATRIX, &tail].concat());
    let mdhd = full(b"mdhd", 0, 0, &[0, 0, TIMESCALE, 0, 0x55c4_0000]);
    let hdlr = boxed(b"hdlr", &[&[0; 8], b"vide", &[0; 13]]);
    let mdia = boxed(b"mdia", &[&mdhd, &hdlr, &media_information()]);
    boxed(b"trak", &[&tkhd, &mdia])
}

fn media_information() -> Vec<u8> {
    let vmhd = full(b"vmhd", 0, 1, &[0, 0]);
    let here = full(b"url ", 0, 1, &[]);
    let dref = boxed(b"dref", &[&words(&[0, 1]), &here]);
    let dinf = boxed(b"dinf", &[&dref]);
    let stsd = boxed(b"stsd", &[&words(&[0, 1]), &sample_entry()]);
    let tables = [b"stts", b"stsc", b"stco"].map(|kind| full(kind, 0, 0, &[0]));
    let stsz = full(b"stsz", 0, 0, &[0, 0]);
    let stbl = boxed(b"stbl", &[&stsd, &tables.concat(), &stsz]);
    boxed(b"minf", &[&vmhd, &dinf, &stbl])
}

/// Video of no known coding: what is in the samples matters to no one here.
fn sample_entry() -> Vec<u8> {
    let entry = words(&[
        0,
        1,
        0,
        0,
        0,
        0,
        WIDTH << 16 | HEIGHT,
        72 << 16,
        72 << 16,
        0,
    ]);
    boxed(b"none", &[&entry, &[0, 1], &[0; 32], &[0, 24, 0xff, 0xff]])
}
