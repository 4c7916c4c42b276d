//! The table of segments that come in lumps.

use crate::measure::{Case, Coming, Measure, HEAVY_BYTES, HEAVY_FRAMES};
use crate::rounds::{measured, ratios};
use crate::segment::heavy_segment;

/// The bytes of a lump: a packet of a transport stream, seven of them, a quarter of the longest lump, and
/// that.
const WAYS: [(Coming, &str); 5] = [
    (Coming::InLumps(188), "in lumps of 188 bytes"),
    (Coming::InLumps(1_316), "in lumps of 1,316"),
    (Coming::InLumps(16_384), "in lumps of 16,384"),
    (Coming::InLumps(65_536), "in lumps of 65,536"),
    (Coming::Whole, "whole, in one call"),
];

/// Times a segment of 2,500 frames with 10 MB of media data, in lumps and whole: all its calls together,
/// and the bytes in a second.
pub fn report(proved: &mut dyn Measure, second: &mut dyn Measure) -> String {
    let cases = WAYS.map(|(coming, _)| Case::Heavy(coming));
    let times = measured(&cases, proved, second);
    let bytes = heavy_segment(HEAVY_FRAMES, HEAVY_BYTES).len() as f64;
    let mut text = String::from(
        "| a segment of 2,500 frames with 10 MB of media data | time | MB a second, proved | second |\n",
    );
    text.push_str("|---|---|---|---|\n");
    for ((_, name), times) in WAYS.iter().zip(&times) {
        let [proved, second] = [times.proved, times.second].map(|micros| bytes / micros);
        text.push_str(&format!(
            "| {name} | {times} | {proved:.0} | {second:.0} |\n"
        ));
    }
    let lumps = &times[..WAYS.len() - 1];
    text.push_str(&format!("\nRatios of lumps: {}.\n", ratios(lumps)));
    text
}
