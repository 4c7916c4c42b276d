//! An instant is held from the start of a range up to its end, in C and in Rust.

use galumper::{held, Range};

use crate::compiler::{folder, include, source, written_watched};

const WRITTEN: &str = "\
-1: 0 0
0: 1 1
9: 1 1
10: 0 0
19: 0 0
20: 0 1
29: 0 1
30: 0 0
";

#[test]
fn in_c() {
    let written = written_watched(&source("held.c"), &include(), &folder("held"));
    assert_eq!(written, WRITTEN);
}

#[test]
fn in_rust() {
    let ranges = [Range { start: 0, end: 10 }, Range { start: 20, end: 30 }];
    let told = |instant| {
        let [first, both] = [&ranges[..1], &ranges].map(|list| u8::from(held(list, instant)));
        format!("{instant}: {first} {both}\n")
    };
    let written: String = [-1, 0, 9, 10, 19, 20, 29, 30].map(told).concat();
    assert_eq!(written, WRITTEN);
}
