//! The kinds of scripts, each aimed at some part of the paper.

use second::{quotient, FRAME_PLACES, LONGEST_DURATION, OFFERED_LIMIT, RESULT_LIMIT, TRACK_PLACES};

use crate::halves::Half;
use crate::writer::{word, Writer, PAST_A_BYTE};

/// Times as offered, at and around their limits.
const OFFERED: [i64; 13] = [
    0,
    1,
    -1,
    100,
    OFFERED_LIMIT / 2,
    -OFFERED_LIMIT / 2,
    OFFERED_LIMIT - 1,
    OFFERED_LIMIT,
    OFFERED_LIMIT,
    1 - OFFERED_LIMIT,
    -OFFERED_LIMIT,
    -OFFERED_LIMIT,
    OFFERED_LIMIT - 100,
];

/// Times after the offset, at and around their limits.
const RESULTS: [i64; 13] = [
    0,
    1000,
    OFFERED_LIMIT,
    -OFFERED_LIMIT,
    2 * OFFERED_LIMIT,
    -2 * OFFERED_LIMIT,
    3 * OFFERED_LIMIT,
    -3 * OFFERED_LIMIT,
    RESULT_LIMIT - OFFERED_LIMIT / 2,
    RESULT_LIMIT - 100,
    RESULT_LIMIT - 99,
    RESULT_LIMIT,
    -RESULT_LIMIT,
];

/// The script of a seed, call by call. In every other one, appends that follow each other are
/// joined to batches, whatever it is aimed at.
pub fn script(seed: u64) -> Vec<String> {
    let mut writer = Writer::new(seed);
    match seed % 100 {
        0..=9 => mixed(&mut writer),
        10..=13 => groups(&mut writer),
        14..=16 => walks(&mut writer),
        17..=20 => seeks(&mut writer),
        21..=26 => batches(&mut writer),
        27..=39 => overlaps(&mut writer),
        40..=53 => sequence(&mut writer),
        54..=62 => windows(&mut writer),
        63..=66 => seconds(&mut writer),
        67..=68 => halves(&mut writer),
        69..=73 => offered_limits(&mut writer),
        74..=83 => result_limits(&mut writer),
        84..=85 => long_way_round(&mut writer),
        86..=92 => damage(&mut writer),
        93..=94 => numbers_gone(&mut writer),
        95..=97 => refusals(&mut writer),
        98 => long(&mut writer),
        _ => full(&mut writer),
    }
    if writer.rng.percent(50) {
        writer.join_appends();
    }
    writer.line("state");
    writer.calls
}

/// Every call, on buffers of all sizes.
fn mixed(writer: &mut Writer) {
    writer.create_some();
    for _ in 0..writer.rng.between(5, 120) {
        writer.any_call();
        if writer.rng.percent(1) {
            let slot = writer.rng.pick(&[1, 2]);
            writer.line(format!("buffer {slot}"));
        }
    }
}

/// Old stretches appended over again: steps 7 and 8.
fn overlaps(writer: &mut Writer) {
    writer.create_some();
    for _ in 0..writer.rng.between(10, 60) {
        match writer.rng.between(1, 20) {
            1..=11 => writer.append_anywhere(),
            12..=15 => writer.append_on(),
            16..=17 => writer.line("abort"),
            18 => writer.remove(),
            19 => remove_shown_later(writer),
            _ => writer.report(),
        }
    }
}

/// Groups whose frames stand among each other, and the last of them: step 8, and refusal 9.
fn groups(writer: &mut Writer) {
    writer.create_some();
    if writer.rng.percent(50) {
        let left = writer.rng.pick(&[0, 1, 1, 1, 2, 2, 3]);
        writer.line(format!("poke group {}", u32::MAX - left));
    }
    for _ in 0..writer.rng.between(10, 60) {
        match writer.rng.between(1, 20) {
            1..=6 => writer.append_anywhere(),
            7..=12 => writer.append_on(),
            13..=14 => writer.line("abort"),
            15..=16 => writer.remove(),
            17 => remove_shown_later(writer),
            18 => writer.batch_of_a_segment(),
            19 => last_group(writer),
            _ => writer.any_call(),
        }
    }
}

/// No group can follow from here.
fn last_group(writer: &mut Writer) {
    writer.line(format!("poke group {}", u32::MAX));
}

/// Lists of frames as segments have them, often over stretches that are there already.
fn batches(writer: &mut Writer) {
    writer.create_some();
    for _ in 0..writer.rng.between(2, 16) {
        match writer.rng.between(1, 12) {
            1..=6 => writer.batch_of_a_segment(),
            7..=8 => {
                let (frames, words) = (writer.rng.between(0, 64), writer.lines_enough());
                writer.batch(words, |writer| {
                    for _ in 0..frames {
                        writer.append_anywhere();
                    }
                });
            }
            9 => writer.batch_of_any_size(),
            10 => writer.line("abort"),
            _ => writer.any_call(),
        }
    }
}

/// Frames shown in another order than they are decoded, with gaps, equal times and overlaps, and how
/// far a report comes among them into few places and into many.
fn walks(writer: &mut Writer) {
    writer.create_some();
    for _ in 0..writer.rng.between(1, 5) {
        match writer.rng.between(1, 10) {
            1..=5 => writer.line_in_another_order(),
            6..=7 => writer.batch_of_a_segment(),
            8 => {
                for _ in 0..writer.rng.between(1, 12) {
                    writer.append_anywhere();
                }
            }
            9 => writer.line("abort"),
            _ => writer.remove(),
        }
        let track = writer.track();
        for places in 0..writer.rng.between(2, 9) {
            writer.line(format!("walked {track} places={places}"));
        }
        writer.walk();
    }
}

/// Groups among each other and frames shown in another order than they are decoded, where decoding
/// starts for instants around them, and what to feed.
fn seeks(writer: &mut Writer) {
    writer.create_some();
    for _ in 0..writer.rng.between(1, 6) {
        match writer.rng.between(1, 10) {
            1..=2 => writer.line_in_another_order(),
            3..=4 => writer.frames_of_one_time(),
            5 => writer.batch_of_a_segment(),
            6..=8 => {
                for _ in 0..writer.rng.between(1, 12) {
                    writer.append_anywhere();
                }
            }
            9 => writer.append_on(),
            _ => writer.remove(),
        }
        if writer.rng.percent(50) {
            writer.line("abort");
        }
        some_seeks(writer);
        if writer.rng.percent(40) {
            seeks_in_a_poked_state(writer);
        }
        writer.feed();
    }
}

/// Seeks around the frames that were offered.
fn some_seeks(writer: &mut Writer) {
    for _ in 0..writer.rng.between(4, 12) {
        writer.seek();
    }
}

/// Seeks in a state that no call leaves: of the first frames some have lost their flag, or are of
/// another group, or have a number above all others.
fn seeks_in_a_poked_state(writer: &mut Writer) {
    writer.line("save");
    writer.line("poke group 9");
    writer.line("poke last-number 9000");
    for _ in 0..writer.rng.between(1, 6) {
        let frame = writer.rng.pick(&[1, 1, 2, 3, 4]);
        let (field, number) = match writer.rng.between(1, 10) {
            1..=4 => ("flag", 0),
            5..=7 => ("group", writer.rng.between(0, 3)),
            8..=9 => ("number", 9000 - frame),
            _ => ("p", writer.instant().abs()),
        };
        writer.line(format!("poke frame {frame} {field} {number}"));
    }
    some_seeks(writer);
    writer.line("restore");
}

/// A removal of a random access point whose follower is shown before it, and so goes by the walk.
fn remove_shown_later(writer: &mut Writer) {
    let (track, time) = (writer.track(), writer.instant().abs() + 100);
    let earlier = time - writer.rng.pick(&[1, 50, 100]);
    writer.append(track, time, time, 100, true);
    writer.append(track, earlier, time + 100, 100, false);
    let (start, end) = (writer.near(time), writer.near(time + 1));
    writer.line(format!("remove {start} {end}"));
}

/// Group starts and offsets: steps 1 and 3 in sequence mode.
fn sequence(writer: &mut Writer) {
    writer.create_some();
    writer.line("mode sequence");
    for _ in 0..writer.rng.between(10, 60) {
        match writer.rng.between(1, 20) {
            1..=9 => writer.append_on(),
            10..=12 => writer.append_anywhere(),
            13 => writer.line("abort"),
            14 => writer.line("mode sequence"),
            15 => writer.mode(),
            16 => {
                let offset = match writer.rng.percent(20) {
                    true => word(-0.0),
                    false => writer.small_offset(),
                };
                writer.line(format!("offset {offset}"));
            }
            17 => writer.setter(),
            18 => writer.remove(),
            19 => writer.line("settings"),
            _ => writer.report(),
        }
    }
}

/// Frames at the edges of a window: steps 4 to 6.
fn windows(writer: &mut Writer) {
    writer.create_some();
    for _ in 0..writer.rng.between(2, 6) {
        let start = writer.rng.pick(&[0, 50, 100, 200]);
        let end = start + writer.rng.pick(&[100, 101, 250, 400]);
        let (from, to) = (writer.near(start), writer.near(end));
        writer.line("window-end inf");
        writer.line(format!("window-start {from}"));
        writer.line(format!("window-end {to}"));
        for _ in 0..writer.rng.between(3, 14) {
            match writer.rng.between(1, 10) {
                1..=4 => {
                    let edge = writer.rng.pick(&[start, end - 100, end]);
                    let (track, pts) = (writer.track(), edge + writer.rng.between(-1, 1));
                    let flagged = writer.rng.percent(60);
                    writer.append(track, pts, pts, 100, flagged);
                }
                5..=8 => writer.append_on(),
                9 => writer.mode(),
                _ => writer.report(),
            }
        }
    }
}

/// Seconds that are easily converted wrongly, in every call that takes them.
fn seconds(writer: &mut Writer) {
    writer.create_some();
    writer.append(1, 0, 0, 10_000, true);
    for _ in 0..writer.rng.between(5, 40) {
        let name = writer
            .rng
            .pick(&["offset", "window-start", "window-end", "remove"]);
        let time = match writer.rng.percent(40) {
            true => word(writer.half()),
            false => writer.special(),
        };
        match (name, writer.rng.percent(50)) {
            ("remove", true) => writer.line(format!("remove {time} inf")),
            ("remove", false) => {
                let end = writer.special();
                writer.line(format!("remove {time} {end}"));
            }
            _ => writer.line(format!("{name} {time}")),
        }
        match writer.rng.between(1, 5) {
            1..=2 => writer.line("settings"),
            3 => writer.append_anywhere(),
            4 => writer.any_call(),
            _ => {}
        }
    }
}

/// Halves of a microsecond where it shows which way they go: windows and removals at the whole numbers
/// beside them, and saved states.
fn halves(writer: &mut Writer) {
    writer.create_some();
    for _ in 0..writer.rng.between(4, 16) {
        let half = writer.exact_half();
        let above_zero = Half(half.0.abs());
        match writer.rng.between(1, 6) {
            1 => window_at_a_half(writer, above_zero),
            2..=3 => removal_at_a_half(writer, above_zero),
            4 => saved_half(writer, "offset", half),
            5 => saved_half(writer, "window-start", above_zero),
            _ => saved_half(writer, "window-end", above_zero),
        }
    }
}

/// A window from the number below up to the half, or one from the half up to the number above.
fn window_at_a_half(writer: &mut Writer, half: Half) {
    let [below, above] = [half.below(), half.up()].map(|micros| word(quotient(micros)));
    let half = word(half.double());
    writer.line("abort");
    if writer.rng.percent(50) {
        writer.line(format!("window-start {below}"));
        writer.line(format!("window-end {half}"));
    } else {
        writer.line(format!("window-end {above}"));
        writer.line(format!("window-start {half}"));
    }
}

/// A removal from a half on or up to it, with a random access point at either number beside it.
fn removal_at_a_half(writer: &mut Writer, half: Half) {
    writer.line("abort");
    writer.line("offset 0");
    let (track, beside) = (writer.track(), [half.below(), half.up()]);
    for time in beside {
        writer.append(track, time, time, 1, true);
    }
    let [below, above] = beside.map(|micros| word(quotient(micros)));
    let half = word(half.double());
    let call = match writer.rng.between(1, 4) {
        1 => format!("remove {half} inf"),
        2 => format!("remove 0 {half}"),
        3 => format!("remove {below} {half}"),
        _ => format!("remove {half} {above}"),
    };
    writer.line(call);
}

/// A saved state that keeps a half as a setting, with either number beside it.
fn saved_half(writer: &mut Writer, name: &str, half: Half) {
    let micros = writer.rng.pick(&[half.below(), half.up()]);
    writer.line("save");
    writer.line(format!("poke {name}-us {micros}"));
    writer.line(format!("poke {name}-double {}", word(half.double())));
    for _ in 0..writer.rng.between(2, 6) {
        every_call(writer);
    }
    writer.line("restore");
}

/// Fields of the offered frame at their limits, and tracks that are not there.
fn offered_limits(writer: &mut Writer) {
    writer.create_some();
    for _ in 0..writer.rng.between(5, 40) {
        let track = match writer.rng.percent(10) {
            true => writer
                .rng
                .pick(&[0, writer.tracks + 1, PAST_A_BYTE, u32::MAX]),
            false => writer.track(),
        };
        let [pts, dts] = [(); 2].map(|()| match writer.rng.percent(10) {
            true => writer.rng.pick(&[
                OFFERED_LIMIT + 1,
                -OFFERED_LIMIT - 1,
                RESULT_LIMIT,
                i64::MIN,
                i64::MAX,
            ]),
            false => writer.rng.pick(&OFFERED),
        });
        let duration = writer.duration_at_limit();
        let flag = writer.rng.pick(&[0, 1, 1, 1]);
        writer.line(format!("append {track} {pts} {dts} {duration} {flag}"));
        if writer.rng.percent(30) {
            let offset = writer
                .rng
                .pick(&[1_000_000.0, -1_000_000.0, 999_999.999_999, 0.0]);
            writer.line(format!("offset {}", word(offset)));
        }
        if writer.rng.percent(20) {
            writer.any_call();
        }
    }
}

/// Offset, group start and group end at their limits, written into the state: refusal 7 in both
/// passes, on either side.
fn result_limits(writer: &mut Writer) {
    writer.create_some();
    writer.append(1, 0, 0, 100, true);
    for _ in 0..writer.rng.between(2, 12) {
        writer.line("save");
        let offset = writer.rng.pick(&RESULTS);
        writer.line(format!("poke offset-us {offset}"));
        writer.line(format!("poke offset-double {}", word(quotient(offset))));
        let end = writer.rng.pick(&RESULTS);
        writer.line(format!("poke group-end {end}"));
        if writer.rng.percent(70) {
            writer.line("poke mode sequence");
        }
        if writer.rng.percent(30) {
            let start = writer.rng.pick(&RESULTS);
            writer.line(format!("poke group-start {start}"));
        }
        if writer.rng.percent(20) {
            last_group(writer);
        }
        for _ in 0..writer.rng.between(1, 6) {
            let track = writer.track();
            let pts = writer.rng.pick(&OFFERED);
            let dts = match writer.rng.percent(40) {
                true => pts,
                false => writer.rng.pick(&OFFERED),
            };
            let duration = writer.rng.pick(&[1, 100, 10_000_000]);
            let flagged = writer.rng.percent(80);
            writer.append(track, pts, dts, duration, flagged);
            if writer.rng.percent(20) {
                writer.any_call();
            }
        }
        if writer.rng.percent(80) {
            writer.line("restore");
        }
    }
}

/// The limits after the offset, reached by calls alone.
fn long_way_round(writer: &mut Writer) {
    let sign = writer.rng.pick(&["", "", "-"]);
    let far = match sign {
        "-" => -OFFERED_LIMIT,
        _ => OFFERED_LIMIT,
    };
    writer.create(1);
    writer.line(format!("offset {sign}1000000"));
    writer.append(1, far, far, 100, true);
    for _ in 0..writer.rng.between(1, 4) {
        writer.line("mode sequence");
        writer.append(1, -far, -far, 100, true);
        writer.line("mode segments");
        let near = far - writer.rng.pick(&[0, 100, 200, 300]);
        writer.append(1, near, near, 100, true);
    }
    writer.line("mode sequence");
    for _ in 0..writer.rng.between(2, 10) {
        let (pts, dts) = (writer.rng.pick(&OFFERED), writer.rng.pick(&OFFERED));
        writer.append(1, pts, dts, 100, true);
        if writer.rng.percent(30) {
            writer.any_call();
        }
    }
}

/// States damaged by pokes, a clause of the well-formed test at a time, and some that a poke
/// leaves well-formed.
fn damage(writer: &mut Writer) {
    writer.create_some();
    for _ in 0..writer.rng.between(4, 12) {
        writer.append_on();
    }
    for _ in 0..writer.rng.between(3, 10) {
        if writer.rng.percent(30) {
            writer.any_call();
        }
        if writer.rng.percent(20) {
            writer.line("window-end 0.0005");
        }
        writer.line("save");
        for _ in 0..writer.rng.pick(&[1, 1, 1, 1, 2, 3]) {
            poke(writer);
        }
        for _ in 0..writer.rng.between(1, 5) {
            every_call(writer);
        }
        writer.line("restore");
    }
}

fn poke(writer: &mut Writer) {
    let beyond = RESULT_LIMIT + 1;
    let time = writer.rng.pick(&[
        0,
        5,
        100,
        350,
        -1,
        RESULT_LIMIT,
        -RESULT_LIMIT,
        beyond,
        -beyond,
        i64::MAX,
        i64::MIN,
    ]);
    let maybe = match writer.rng.between(1, 5) {
        1 => "unset".to_string(),
        2 => "unset:5".to_string(),
        _ => time.to_string(),
    };
    let double = match writer.rng.percent(50) {
        true => writer.special(),
        false => writer.near(5),
    };
    let track = match writer.rng.percent(70) {
        true => writer.track(),
        false => writer.rng.between(1, TRACK_PLACES as i64) as u32,
    };
    let frame = writer.rng.between(1, 8);
    match writer.rng.between(1, 33) {
        1 => {
            let last = writer.rng.pick(&[0, 1, 4, 20, u32::MAX]);
            writer.line(format!("poke last-number {last}"));
        }
        2 => {
            let mode = writer.rng.pick(&["segments", "sequence"]);
            writer.line(format!("poke mode {mode}"));
        }
        3..=4 => writer.line(format!("poke group-start {maybe}")),
        5 => writer.line(format!("poke group-end {time}")),
        6 => writer.line(format!("poke offset-us {time}")),
        7 => writer.line(format!("poke offset-double {double}")),
        8 => writer.line(format!("poke window-start-us {time}")),
        9 => writer.line(format!("poke window-start-double {double}")),
        10 => {
            // A window start at odds with the end alone.
            writer.line("poke window-start-us 900");
            writer.line(format!("poke window-start-double {}", word(quotient(900))));
        }
        11 => writer.line(format!("poke window-end-us {maybe}")),
        12 => writer.line(format!("poke window-end-double {double}")),
        13..=14 => {
            let tracks = writer.rng.pick(&[0, 1, 2, 3, 4, 5, 255]);
            writer.line(format!("poke tracks {tracks}"));
        }
        15 => {
            let kind = writer.rng.pick(&[0, 1, 2, 255]);
            writer.line(format!("poke track {track} kind {kind}"));
        }
        16 => writer.line(format!("poke track {track} last-decode {maybe}")),
        17 => {
            let duration = writer
                .rng
                .pick(&["0", "1", "10000000", "10000001", "unset"]);
            writer.line(format!("poke track {track} last-duration {duration}"));
        }
        18..=19 => writer.line(format!("poke track {track} highest-end {maybe}")),
        20 => {
            let need = writer.rng.pick(&[0, 1]);
            writer.line(format!("poke track {track} need {need}"));
        }
        21 => {
            let frames = writer.rng.pick(&[0, 1, 3, 5, 1024, 1025]);
            writer.line(format!("poke frames {frames}"));
        }
        22 => {
            let track = writer.rng.pick(&[0, 1, 2, 4, 5, PAST_A_BYTE]);
            writer.line(format!("poke frame {frame} track {track}"));
        }
        23..=24 => writer.line(format!("poke frame {frame} p {time}")),
        25 => writer.line(format!("poke frame {frame} d {time}")),
        26 => {
            let duration = writer.duration_at_limit();
            writer.line(format!("poke frame {frame} duration {duration}"));
        }
        27 => {
            let flag = writer.rng.pick(&[0, 1]);
            writer.line(format!("poke frame {frame} flag {flag}"));
        }
        28..=29 => {
            let number = writer.rng.pick(&[0, 1, 2, 3, 9, u32::MAX]);
            writer.line(format!("poke frame {frame} number {number}"));
        }
        30..=31 => {
            let group = writer.rng.pick(&[0, 1, 2, 3, 9, u32::MAX]);
            writer.line(format!("poke frame {frame} group {group}"));
        }
        32 => {
            let group = writer.rng.pick(&[0, 1, 5, 20, u32::MAX]);
            writer.line(format!("poke group {group}"));
        }
        _ => {
            let field = writer.rng.pick(&["p", "group"]);
            writer.line(format!("poke frame 1024 {field} 1"));
        }
    }
}

/// Each call with the same chance, also with lists too short and with times out of order.
fn every_call(writer: &mut Writer) {
    let fates = writer.rng.pick(&["", "", "", " fates=1023"]);
    match writer.rng.between(1, 15) {
        1..=2 => {
            let track = writer.track();
            writer.line(format!("append {track} 100 100 100 1{fates}"));
        }
        3 => writer.line(format!("remove 0.0001 0.0003{fates}")),
        4 => writer.line("abort"),
        5 => writer.mode(),
        6..=7 => writer.setter(),
        8 => writer.line("settings"),
        9..=10 => writer.report(),
        11 => writer.segment(),
        12..=13 => writer.batch_of_any_size(),
        14 => writer.feed(),
        _ => writer.append_on(),
    }
}

/// The last frame numbers, used up by frames stored, dropped and refused.
fn numbers_gone(writer: &mut Writer) {
    writer.create_some();
    for _ in 0..writer.rng.between(0, 5) {
        writer.append_on();
    }
    let left = writer.rng.between(0, 4);
    let last = i64::from(u32::MAX) - left;
    writer.line(format!("poke last-number {last}"));
    for _ in 0..writer.rng.between(2, 12) {
        match writer.rng.between(1, 10) {
            1..=6 => writer.append_on(),
            7 => writer.append(1, OFFERED_LIMIT, 0, 100, true),
            8 => writer.line("append 1 0 0 0 1"),
            9 => writer.line("offset 1000000"),
            _ => writer.any_call(),
        }
    }
}

/// Calls that several refusals apply to, calls without a buffer, and lines that are no calls.
fn refusals(writer: &mut Writer) {
    if writer.rng.percent(50) {
        writer.tracks = 1;
        every_call(writer);
    }
    for _ in 0..writer.rng.between(0, 3) {
        let kinds = writer
            .rng
            .pick(&["", " 2", " 0 0 0 0 0", " 0 7", " 4294967295"]);
        writer.line(format!("create{kinds}"));
    }
    writer.create_some();
    for _ in 0..writer.rng.between(5, 40) {
        let fates = writer.rng.pick(&[
            "",
            "",
            " fates=0",
            " fates=1023",
            " fates=1024",
            " fates=2000",
        ]);
        match writer.rng.between(1, 14) {
            1..=4 => writer.append_on(),
            5..=6 => {
                let track = writer
                    .rng
                    .pick(&[0, 1, writer.tracks, writer.tracks + 1, PAST_A_BYTE]);
                let pts = writer.rng.pick(&[0, 100, OFFERED_LIMIT, OFFERED_LIMIT + 1]);
                let duration = writer.duration_at_limit();
                writer.line(format!("append {track} {pts} 0 {duration} 1{fates}"));
            }
            7..=8 => {
                let start = writer
                    .rng
                    .pick(&["0", "-1", "0.0001", "nan", "inf", "0.0003"]);
                let end = writer
                    .rng
                    .pick(&["0.0003", "inf", "nan", "-inf", "0.0001004", "0"]);
                writer.line(format!("remove {start} {end}{fates}"));
            }
            9 => {
                let track = writer
                    .rng
                    .pick(&[0, 1, writer.tracks, writer.tracks + 1, PAST_A_BYTE]);
                let places = writer.rng.pick(&[0, 1, 2, 4096]);
                let name = writer.rng.pick(&["ranges", "walked"]);
                writer.line(format!("{name} {track} places={places}"));
            }
            10 => writer.report(),
            11 => {
                let line = writer.rng.pick(&[
                    "walked",
                    "walked 1 fates=1",
                    "seek 1",
                    "seek 1 0.5",
                    "feed init 0 0 -",
                    "feed segment -1 0 - -",
                    "room 1 0",
                    "batch 2",
                    "batch 1\nframe 1 0 0 100",
                    "# a comment",
                    "",
                    "append 1 0 0 100",
                    "mode both",
                    "poke group",
                ]);
                writer.line(line);
            }
            12 => writer.batch_of_any_size(),
            13 => writer.line("buffer 2"),
            _ => every_call(writer),
        }
    }
}

/// A long run of everything on one buffer.
fn long(writer: &mut Writer) {
    let tracks = writer.rng.between(1, TRACK_PLACES as i64) as u32;
    writer.create(tracks);
    for _ in 0..writer.rng.between(300, 800) {
        writer.any_call();
    }
}

/// A store filled to the last place, and what may still be appended then.
fn full(writer: &mut Writer) {
    let tracks = writer.rng.pick(&[1, 1, 2, 3, 4]);
    writer.create(tracks);
    let step = writer.rng.pick(&[100, 100, 101, 150, 200]);
    let group = writer.rng.pick(&[1, 2, 25, 2000]);
    for number in 0..FRAME_PLACES as i64 {
        let tracks = i64::from(tracks);
        let (track, place) = (number % tracks + 1, number / tracks);
        let time = place * step;
        writer.append(track as u32, time, time, 100, place % group == 0);
    }
    some_seeks(writer);
    if writer.rng.percent(40) {
        most_lines(writer);
    }
    if writer.rng.percent(30) {
        last_group(writer);
    }
    let last = FRAME_PLACES as i64 / i64::from(tracks) * step;
    for _ in 0..writer.rng.between(10, 60) {
        let track = writer.track();
        let old = writer.rng.between(0, last / step - 1) * step;
        match writer.rng.between(1, 15) {
            1 => writer.append(track, last, last, 100, true),
            2 => writer.append(track, last, last, 100, false),
            3..=4 => writer.append(track, old, old, 100, true), // a break, in the place of another
            5 => writer.append(track, 2 * last, 2 * last, 100, true), // a break, and no room
            6 => writer.append(track, old, 2 * last, 100, true), // a break by its decode time alone
            7 => {
                writer.line("abort");
                let duration = writer.rng.pick(&[1, 100, 1000]);
                writer.append(track, old, old, duration, true);
            }
            8 => {
                let (start, end) = (quotient(old), quotient(old + 100));
                writer.line(format!("remove {} {}", word(start), word(end)));
            }
            9 => {
                let places = writer.rng.pick(&[1, 255, 256, 511, 512, 1023, 1024, 4096]);
                let name = writer.rng.pick(&["ranges", "walked"]);
                writer.line(format!("{name} {track} places={places}"));
            }
            10 => writer.line("common"),
            11 => writer.mode(),
            12 => writer.append_on(),
            13 => writer.setter(),
            14 => writer.line("settings"),
            _ => {
                // Fills the store again, at its end.
                for place in 0..writer.rng.between(1, 30) {
                    let time = last + place * step;
                    writer.append(track, time, time, 100, true);
                }
            }
        }
    }
}

/// A batch whose frames are dropped up to one, mostly the last, that takes out all of its track.
fn most_lines(writer: &mut Writer) {
    writer.line("abort");
    let kept = writer.rng.pick(&[63, 63, 62, 5]);
    writer.batch("", |writer| {
        for place in 0..64 {
            let flagged = place == kept;
            let duration = if flagged { LONGEST_DURATION } else { 100 };
            writer.append(1, 0, place, duration, flagged);
        }
    });
}
