//! The functions of the static library, as `include/galumper.h` declares them: the head or the lump
//! reader goes by value, and the arrays are lent.

use crate::buffer::{Head, Offered, Tags, Times};
use crate::listing::{ListedFrame, SegmentTrack};
use crate::lists::{Fate, Range};
use crate::names::Kind;
use crate::reader::LumpReader;

/// The number of the layout and of the functions below; the library has its own to compare.
pub const ABI: u32 = 8;

/// What a call answers: its refusal, 0 for none, and how many lines, ranges or frames it wrote, or
/// of the walk, how many frames it takes.
#[repr(C)]
pub struct Answer {
    pub refusal: u32,
    pub count: usize,
}

/// What a call that can change the buffer hands back.
#[repr(C)]
pub struct Answered {
    pub head: Head,
    pub answer: Answer,
}

/// What appending a batch answers: its refusal, 0 for none; that of the frame that stopped it, 0 for
/// none; how many frames were accepted, and how many lines were written.
#[repr(C)]
pub struct BatchAnswer {
    pub refusal: u32,
    pub stop: u32,
    pub accepted: usize,
    pub count: usize,
}

/// What appending a batch hands back.
#[repr(C)]
pub struct Batched {
    pub head: Head,
    pub answer: BatchAnswer,
}

/// What taking a lump hands back.
#[repr(C)]
pub struct Lumped {
    pub reader: LumpReader,
    pub answer: Answer,
}

/// What a seek answers: its refusal, 0 for none; the number of the frame that covers the instant and
/// that of the random access point; and how many frames there are to decode.
#[repr(C)]
pub struct Start {
    pub refusal: u32,
    pub target: u32,
    pub flagged: u32,
    pub count: usize,
}

/// Where the bytes to feed start in what was lent, and how many they are.
#[repr(C)]
pub struct Part {
    pub start: usize,
    pub length: usize,
}

/// What reading the settings answers.
#[repr(C)]
pub struct Reading {
    pub refusal: u32,
    pub bounded: u8,
    pub offset: f64,
    pub start: f64,
    pub end: f64,
}

extern "C" {
    pub fn galumper_abi() -> u32;
    pub fn galumper_size() -> usize;
    pub fn galumper_lent_create(
        kinds: *const Kind,
        ntracks: usize,
        times: &mut Times,
        tags: &mut Tags,
    ) -> Answered;
    pub fn galumper_lent_append(
        head: Head,
        frame: Offered,
        times: &mut Times,
        tags: &mut Tags,
        fates: *mut Fate,
        lines: usize,
    ) -> Answered;
    pub fn galumper_lent_append_batch(
        head: Head,
        frames: *const ListedFrame,
        nframes: usize,
        times: &mut Times,
        tags: &mut Tags,
        fates: *mut Fate,
        lines: usize,
    ) -> Batched;
    pub fn galumper_lent_remove(
        head: Head,
        start: f64,
        end: f64,
        times: &mut Times,
        tags: &mut Tags,
        fates: *mut Fate,
        lines: usize,
    ) -> Answered;
    pub fn galumper_lent_abort(head: Head, times: &Times, tags: &Tags) -> Answered;
    pub fn galumper_lent_set_segments(head: Head, times: &Times, tags: &Tags) -> Answered;
    pub fn galumper_lent_set_sequence(head: Head, times: &Times, tags: &Tags) -> Answered;
    pub fn galumper_lent_set_offset(
        head: Head,
        times: &Times,
        tags: &Tags,
        seconds: f64,
    ) -> Answered;
    pub fn galumper_lent_set_window_start(
        head: Head,
        times: &Times,
        tags: &Tags,
        seconds: f64,
    ) -> Answered;
    pub fn galumper_lent_set_window_end(
        head: Head,
        times: &Times,
        tags: &Tags,
        seconds: f64,
    ) -> Answered;
    pub fn galumper_lent_read_settings(head: Head, times: &Times, tags: &Tags) -> Reading;
    pub fn galumper_lent_track_ranges(
        head: Head,
        times: &Times,
        tags: &Tags,
        track: u32,
        ranges: *mut Range,
        places: usize,
    ) -> Answer;
    pub fn galumper_lent_common_ranges(
        head: Head,
        times: &Times,
        tags: &Tags,
        ranges: *mut Range,
        places: usize,
    ) -> Answer;
    pub fn galumper_lent_walked(
        head: Head,
        times: &Times,
        tags: &Tags,
        track: u32,
        places: usize,
    ) -> Answer;
    pub fn galumper_lent_seek(
        head: Head,
        times: &Times,
        tags: &Tags,
        track: u32,
        instant: i64,
    ) -> Start;
    pub fn galumper_lent_feed(
        initialization: *const u8,
        initialization_length: usize,
        segment: *const u8,
        segment_length: usize,
        whole: u32,
        start: usize,
        end: usize,
    ) -> Part;
    pub fn galumper_lent_list_segment(
        of: SegmentTrack,
        segment: *const u8,
        length: usize,
        frames: *mut ListedFrame,
        places: usize,
    ) -> Answer;
    pub fn galumper_lent_take_lump(
        reader: LumpReader,
        buffer: *mut u8,
        size: usize,
        lump: *const u8,
        length: usize,
    ) -> Lumped;
    pub fn galumper_lent_take_last(
        reader: LumpReader,
        of: SegmentTrack,
        buffer: *const u8,
        size: usize,
        lump: *const u8,
        length: usize,
        frames: *mut ListedFrame,
        places: usize,
    ) -> Lumped;
}
