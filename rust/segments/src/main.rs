//! Takes a fragmented MP4 file apart, for `make`: writes its N-th media segment, and the file with
//! all other media segments blanked, and tells the numbers of each track.
//!
//!     segments FILE N SEGMENT ALONE

use std::{env, error::Error, fs};

/// A box: its type, its body, and its bytes with the header.
type Part<'a> = (&'a [u8], &'a [u8], &'a [u8]);

/// The boxes of a body. The files are well-formed, and each box has a size of 32 bits.
fn parts(mut body: &[u8]) -> Vec<Part<'_>> {
    let mut parts = Vec::new();
    while !body.is_empty() {
        let (whole, rest) = body.split_at(number(body, 0) as usize);
        parts.push((&whole[4..8], &whole[8..], whole));
        body = rest;
    }
    parts
}

/// The bodies of the boxes of a type.
fn all<'a>(body: &'a [u8], name: &str) -> Vec<&'a [u8]> {
    let mut parts = parts(body);
    parts.retain(|(kind, ..)| *kind == name.as_bytes());
    parts.into_iter().map(|(_, body, _)| body).collect()
}

fn number(bytes: &[u8], at: usize) -> u32 {
    u32::from_be_bytes(bytes[at..at + 4].try_into().expect("four bytes"))
}

/// The number after the two times, which have 64 bits each in version 1: the track's ID in a
/// `tkhd`, its timescale in an `mdhd`.
fn after_times(body: &[u8]) -> u32 {
    number(body, if body[0] == 1 { 20 } else { 12 })
}

/// A track's numbers: its ID, its timescale, and the defaults of its samples.
fn numbers(track: &[u8], extends: &[u8]) -> String {
    let id = after_times(all(track, "tkhd")[0]);
    let timescale = after_times(all(all(track, "mdia")[0], "mdhd")[0]);
    let defaults = all(extends, "trex");
    let defaults = defaults.iter().find(|body| number(body, 4) == id);
    let [duration, size, flags] = [12, 16, 20].map(|at| number(defaults.expect("a trex"), at));
    format!("id {id} timescale {timescale} duration {duration} size {size} flags {flags}")
}

/// The initialization segment, and the media segments: one begins where that before has its movie
/// or its media data. What follows the last, an index of the fragments, stays with it.
fn pieces(file: &[u8]) -> Vec<Vec<u8>> {
    let mut pieces = vec![Vec::new()];
    let mut complete = false;
    for (kind, _, whole) in parts(file) {
        if complete
            && ["styp", "prft", "sidx", "moof"].contains(&str::from_utf8(kind).unwrap_or(""))
        {
            pieces.push(Vec::new());
            complete = false;
        }
        complete |= kind == b"moov" || kind == b"mdat";
        pieces.last_mut().expect("one at least").extend(whole);
    }
    pieces
}

/// Makes a piece one box that is skipped, so that all others stay where they are.
fn blank(piece: &mut [u8]) {
    let size = piece.len() as u32;
    piece.fill(0);
    piece[..4].copy_from_slice(&size.to_be_bytes());
    piece[4..8].copy_from_slice(b"free");
}

fn main() -> Result<(), Box<dyn Error>> {
    let arguments: Vec<String> = env::args().skip(1).collect();
    let [file, n, segment, alone] = &arguments[..] else {
        return Err("FILE N SEGMENT ALONE".into());
    };
    let file = fs::read(file)?;
    let n: usize = n.parse()?;
    let mut pieces = pieces(&file);
    fs::write(segment, &pieces[n])?;
    for (_, piece) in pieces
        .iter_mut()
        .enumerate()
        .filter(|(i, _)| *i != 0 && *i != n)
    {
        blank(piece);
    }
    fs::write(alone, pieces.concat())?;
    let movie = all(&file, "moov")[0];
    for track in all(movie, "trak") {
        println!("{}", numbers(track, all(movie, "mvex")[0]));
    }
    Ok(())
}
