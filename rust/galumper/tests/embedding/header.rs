//! The header says what the binding says: version, numbers, and the layout of every struct.

use std::fs;
use std::mem::{offset_of, size_of};

use galumper::{
    Cause, Kind, Mode, Refusal, BATCH, BATCH_FATES, FATES, LUMP, PLACES, RANGES, SIZE, TRACKS,
};

use crate::compiler::{build, folder, include, source, written_watched};

pub fn header() -> String {
    fs::read_to_string(include().join("galumper.h")).expect("a header")
}

/// The number that the header gives a name, as an enumerator or as a macro.
pub fn number(header: &str, name: &str) -> usize {
    let forms = [format!("    {name} = "), format!("#define {name} ")];
    let after = forms.iter().find_map(|form| header.split(form).nth(1));
    let digits = after.and_then(|text| text.split(|c: char| !c.is_ascii_digit()).next());
    let number = digits.and_then(|digits| digits.parse().ok());
    number.unwrap_or_else(|| panic!("{name} has no number"))
}

#[test]
fn the_version_is_the_crates() {
    let version = format!(
        "#define GALUMPER_VERSION \"{}\"\n",
        env!("CARGO_PKG_VERSION")
    );
    assert!(header().contains(&version), "{version}");
}

#[test]
fn every_number_is_the_bindings() {
    let header = header();
    let refusal = |refusal: Refusal| refusal.number() as usize;
    let cause = |cause: Cause| cause.0 as usize;
    for (name, there) in [
        ("GALUMPER_SIZE", SIZE),
        ("GALUMPER_PLACES", PLACES),
        ("GALUMPER_TRACKS", TRACKS),
        ("GALUMPER_FATES", FATES),
        ("GALUMPER_BATCH", BATCH),
        ("GALUMPER_BATCH_FATES", BATCH_FATES),
        ("GALUMPER_RANGES", RANGES),
        ("GALUMPER_LUMP", LUMP),
        ("GALUMPER_VIDEO", Kind::VIDEO.0.into()),
        ("GALUMPER_AUDIO", Kind::AUDIO.0.into()),
        ("GALUMPER_SEGMENTS", Mode::Segments.number() as usize),
        ("GALUMPER_SEQUENCE", Mode::Sequence.number() as usize),
        ("GALUMPER_ILL_FORMED", refusal(Refusal::IllFormed)),
        ("GALUMPER_SHORT_FATES", refusal(Refusal::ShortFates)),
        ("GALUMPER_NO_TRACK", refusal(Refusal::NoTrack)),
        ("GALUMPER_FRAME_LIMITS", refusal(Refusal::FrameLimits)),
        ("GALUMPER_SECONDS", refusal(Refusal::Seconds)),
        ("GALUMPER_ORDER", refusal(Refusal::Order)),
        ("GALUMPER_RESULT_LIMITS", refusal(Refusal::ResultLimits)),
        ("GALUMPER_FULL", refusal(Refusal::Full)),
        ("GALUMPER_LAST_NUMBER", refusal(Refusal::LastNumber)),
        ("GALUMPER_SHORT_LIST", refusal(Refusal::ShortList)),
        ("GALUMPER_KINDS", refusal(Refusal::Kinds)),
        ("GALUMPER_MALFORMED", refusal(Refusal::Malformed)),
        ("GALUMPER_LENT_SIZE", refusal(Refusal::LentSize)),
        ("GALUMPER_LARGE_FRAGMENT", refusal(Refusal::LargeFragment)),
        ("GALUMPER_NO_START", refusal(Refusal::NoStart)),
        ("GALUMPER_BEFORE_WINDOW", cause(Cause::BEFORE_WINDOW)),
        ("GALUMPER_AFTER_WINDOW", cause(Cause::AFTER_WINDOW)),
        ("GALUMPER_NEEDS_POINT", cause(Cause::NEEDS_POINT)),
        ("GALUMPER_OVERLAPPED", cause(Cause::OVERLAPPED)),
        ("GALUMPER_DEPENDED", cause(Cause::DEPENDED)),
        ("GALUMPER_REMOVED", cause(Cause::REMOVED)),
    ] {
        assert_eq!(number(&header, name), there, "{name}");
    }
}

/// What the library hands back and the binding has to itself, as `layout.c` writes it.
const HANDED_BACK: &str = "\
start: refusal 0, target 4, flagged 8, count 16, 24 bytes
part: start 0, length 8, 16 bytes
";

/// A line of what `layout.c` writes: a struct, where each of its fields stands, and its bytes.
macro_rules! line {
    ($name:literal, $type:ident: $($field:ident)+) => {{
        let places = [$(format!("{} {}, ", stringify!($field), offset_of!(galumper::$type, $field))),+];
        format!("{}: {}{} bytes\n", $name, places.concat(), size_of::<galumper::$type>())
    }};
}

#[test]
fn every_field_stands_where_the_binding_has_it() {
    let lines = [
        line!("track", Track: kind known need duration dts end),
        line!("group", Group: begun number start end),
        line!("setting", Setting: bits micros),
        line!("settings", Settings: offset start bounded end limit),
        line!("head", Head: tracks ntracks nframes mode last group settings),
        line!("buffer", Buffer: head times tags),
        line!("offered", Offered: track flagged duration pts dts),
        line!("fate", Fate: number cause),
        line!("range", Range: start end),
        line!("segment_track", SegmentTrack: id track timescale duration size flags),
        line!("listed_frame", ListedFrame: track pts dts duration flagged size),
        line!("lump_reader", LumpReader: head left kept seen phase fragments),
    ];
    let written = written_watched(&source("layout.c"), &include(), &folder("layout"));
    assert_eq!(written, lines.concat() + HANDED_BACK);
}

#[test]
fn a_struct_can_be_declared_before_the_header() {
    let folder = folder("declared");
    let program = folder.join("declared.cpp");
    let text = "\
struct galumper_buffer;
void draw(const galumper_buffer &buffer);
#include \"galumper.h\"
void draw(const galumper_buffer &) {}
int main() {}
";
    fs::write(&program, text).expect("a file");
    assert_eq!(
        build(&program, &include(), &folder.join("declared"), &[]),
        Ok(())
    );
}
