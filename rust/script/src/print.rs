//! How states, doubles and bytes are written in answers.

use second::{Maybe, Mode, Seconds, State, Track};

/// A double by its bits.
pub fn bits(double: f64) -> String {
    format!("{:#018x}", double.to_bits())
}

/// Bytes as a script has them: hexadecimal digits, or `-` for none.
pub fn digits(bytes: &[u8]) -> String {
    match bytes {
        [] => "-".to_string(),
        _ => bytes.iter().map(|byte| format!("{byte:02x}")).collect(),
    }
}

/// The answer to `state`. Counts that a poke made too high are cut to the places there are.
pub fn state_line(state: &State) -> String {
    let head = &state.head;
    let tracks = &head.tracks[..head.track_count.min(head.tracks.len())];
    let frames = &state.frames[..state.frame_count.min(state.frames.len())];
    let kinds: Vec<String> = tracks.iter().map(|track| track.kind.to_string()).collect();
    let mode = match head.mode {
        Mode::Segments => "segments",
        Mode::Sequence => "sequence",
    };
    let end = &head.settings.window_end;
    let window_end = match end.bounded {
        true => time(&end.time),
        false => "unbounded".to_string(),
    };
    let mut words = vec![
        "ok state".to_string(),
        format!("tracks={}", kinds.join(",")),
        format!("last={}", head.last_number),
        format!("group={}", head.group),
        format!("mode={mode}"),
        format!("group-start={}", maybe(head.group_start)),
        format!("group-end={}", head.group_end),
        format!("offset={}", time(&head.settings.offset)),
        format!("window-start={}", time(&head.settings.window_start)),
        format!("window-end={window_end}"),
    ];
    words.extend(
        (1..)
            .zip(tracks)
            .map(|(number, place)| track(number, place)),
    );
    words.push(format!("frames={}", frames.len()));
    words.extend(frames.iter().map(|frame| {
        format!(
            "({},{},{},{},{},{},{})",
            frame.track,
            frame.number,
            frame.pts,
            frame.dts,
            frame.duration,
            u8::from(frame.flagged),
            frame.group
        )
    }));
    words.join(" ")
}

fn time(time: &Seconds) -> String {
    format!("{}/{}", time.micros, bits(time.double))
}

fn maybe(number: Maybe) -> String {
    number
        .get()
        .map_or("unset".to_string(), |number| number.to_string())
}

fn track(number: usize, track: &Track) -> String {
    format!(
        "track{number}={},{},{},{}",
        maybe(track.last_decode),
        maybe(track.last_duration),
        maybe(track.highest_end),
        match track.need_random_access {
            true => "need",
            false => "clear",
        }
    )
}
