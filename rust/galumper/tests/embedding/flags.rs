//! An offered frame whose flag is neither 0 nor 1, which safe Rust cannot pass.

use crate::compiler::{folder, include, source, written_watched};

const WRITTEN: &str = "\
a flag of 2: refused 4
a flag of 255: refused 4
and a duration of 0: refused 4
and the last number given: refused 4
and no such track: refused 3
and a short fate list: refused 2
and a buffer that is not well-formed: refused 1
a flag of 1: refused 0
a flag of 0: refused 0
";

#[test]
fn a_flag_of_two_is_refused_in_its_order() {
    let written = written_watched(&source("flags.c"), &include(), &folder("flags"));
    assert_eq!(written, WRITTEN);
}
