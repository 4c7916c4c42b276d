//! Settings that are half way between two microseconds: from C and C++ every call refuses a buffer that
//! keeps one as it was before version 0.9.0, and the lines that `docs/EMBEDDING.md` has make it again.

use std::fs;

use crate::compiler::{folder, include, source, written_watched};
use crate::document::{calls, document};
use crate::header::header;

const WRITTEN: &str = "\
offset 0.0078125 as 7812: 0 calls take it, 14 are refused 1 and change nothing
  made again: offset as 7813, window from 0, read back; 2 tracks, 0 frames, mode 0
offset 0.0078125 as 7813: 14 calls take it, 0 are refused 1 and change nothing
  made again: offset as 7813, window from 0, read back; 2 tracks, 0 frames, mode 0
offset -0.0234375 as -23438: 0 calls take it, 14 are refused 1 and change nothing
  made again: offset as -23437, window from 0, read back; 2 tracks, 0 frames, mode 0
offset -0.0234375 as -23437: 14 calls take it, 0 are refused 1 and change nothing
  made again: offset as -23437, window from 0, read back; 2 tracks, 0 frames, mode 0
offset 0.0234375 as 23438: 14 calls take it, 0 are refused 1 and change nothing
  made again: offset as 23438, window from 0, read back; 2 tracks, 0 frames, mode 0
offset -0.0078125 as -7812: 14 calls take it, 0 are refused 1 and change nothing
  made again: offset as -7812, window from 0, read back; 2 tracks, 0 frames, mode 0
start as 7812: 0 calls take it, 14 are refused 1 and change nothing
  made again: offset as 0, window from 7813, read back; 2 tracks, 0 frames, mode 0
start as 7813: 14 calls take it, 0 are refused 1 and change nothing
  made again: offset as 0, window from 7813, read back; 2 tracks, 0 frames, mode 0
start as 23438: 14 calls take it, 0 are refused 1 and change nothing
  made again: offset as 0, window from 23438, read back; 2 tracks, 0 frames, mode 0
end as 7812: 0 calls take it, 14 are refused 1 and change nothing
  made again: offset as 0, window from 0 to 7813, read back; 2 tracks, 0 frames, mode 0
end as 7813: 14 calls take it, 0 are refused 1 and change nothing
  made again: offset as 0, window from 0 to 7813, read back; 2 tracks, 0 frames, mode 0
both as before: 0 calls take it, 14 are refused 1 and change nothing
  made again: offset as 0, window from 7813 to 39063, read back; 2 tracks, 0 frames, mode 0
a microsecond that is none now: 0 calls take it, 14 are refused 1 and change nothing
  made again: refused 6, the start is negative or not before the end
in sequence mode, where the next group is to start at the offset
  made again: offset as 7813, window from 0, read back; 2 tracks, 0 frames, mode 1, group start 7813
in sequence mode, where it is to start at the end of the frames
  made again: offset as 7813, window from 0, read back; 2 tracks, 0 frames, mode 1, group start 0
an offset that only an append can have set
  made again: refused 5, the seconds do not convert to microseconds
five tracks
  made again: refused 11, no track, more than four, or an unknown kind
";

#[test]
fn made_again_in_c() {
    let written = written_watched(&source("again.c"), &include(), &folder("again"));
    assert_eq!(written, WRITTEN);
}

#[test]
fn made_again_in_cpp() {
    let folder = folder("again-cpp");
    let program = folder.join("again.cpp");
    fs::copy(source("again.c"), &program).expect("a copy");
    assert_eq!(written_watched(&program, &include(), &folder), WRITTEN);
}

#[test]
fn every_call_that_takes_a_buffer_is_made() {
    let program = fs::read_to_string(source("again.c")).expect("a program");
    let refused_1 = calls(&header()).into_iter().filter(|(name, order)| {
        // A lump reader is refused 1 as well, and is no buffer.
        order.split(", ").next() == Some("1") && name != "galumper_take_lump"
    });
    let names: Vec<String> = refused_1.map(|(name, _)| name).collect();
    assert_eq!(names.len(), 14);
    for name in names {
        assert!(program.contains(&format!("return {name}(&lent")), "{name}");
    }
}

#[test]
fn the_document_has_the_functions_word_for_word() {
    let program = fs::read_to_string(source("again.c")).expect("a program");
    let start = program.find("// A double from").expect("the comment");
    let end = program
        .find("\nstatic galumper_buffer")
        .expect("what follows");
    assert!(document().contains(&program[start..end]));
}
