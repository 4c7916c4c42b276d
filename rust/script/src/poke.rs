//! Pokes: one field of a state written as it lies, so that damaged states can be handed in.

use second::{Maybe, Mode, FRAME_PLACES, TRACK_PLACES};

use crate::words::{flag, mode, seconds, whole};

/// A field of the state and what is written into it. Places count from 0.
#[derive(Clone, Copy, Debug, PartialEq)]
pub enum Poke {
    /// The last frame number given.
    LastNumber(i64),
    /// The group number.
    Group(i64),
    /// The mode only.
    Mode(Mode),
    /// The group start.
    GroupStart(Maybe),
    /// The group end.
    GroupEnd(i64),
    /// The offset's microseconds.
    OffsetMicros(i64),
    /// The offset's double.
    OffsetDouble(f64),
    /// The window start's microseconds.
    WindowStartMicros(i64),
    /// The window start's double.
    WindowStartDouble(f64),
    /// The window end's microseconds, and whether there is an end.
    WindowEndMicros(Maybe),
    /// The window end's double only.
    WindowEndDouble(f64),
    /// The count of tracks.
    Tracks(i64),
    /// A field of a track place.
    Track(usize, TrackField),
    /// The count of frames.
    Frames(i64),
    /// A field of a frame place.
    Frame(usize, FrameField),
}

/// A field of a track place.
#[derive(Clone, Copy, Debug, PartialEq, Eq)]
pub enum TrackField {
    /// The kind.
    Kind(i64),
    /// The last decode time.
    LastDecode(Maybe),
    /// The last duration.
    LastDuration(Maybe),
    /// The highest end.
    HighestEnd(Maybe),
    /// Need-random-access.
    Need(bool),
}

/// A field of a frame place.
#[derive(Clone, Copy, Debug, PartialEq, Eq)]
pub enum FrameField {
    /// The track.
    Track(i64),
    /// The presentation time.
    Presentation(i64),
    /// The decode time.
    Decode(i64),
    /// The duration.
    Duration(i64),
    /// The random-access flag; a state that keeps a bool declines all but 0 and 1.
    Flag(i64),
    /// The frame's number.
    Number(i64),
    /// The frame's group.
    Group(i64),
}

impl Poke {
    /// Reads the words after `poke`.
    pub(crate) fn read(words: &[&str]) -> Option<Self> {
        Some(match *words {
            ["last-number", word] => Self::LastNumber(whole(word)?),
            ["group", word] => Self::Group(whole(word)?),
            ["mode", word] => Self::Mode(mode(word)?),
            ["group-start", word] => Self::GroupStart(maybe(word)?),
            ["group-end", word] => Self::GroupEnd(whole(word)?),
            ["offset-us", word] => Self::OffsetMicros(whole(word)?),
            ["offset-double", word] => Self::OffsetDouble(seconds(word)?),
            ["window-start-us", word] => Self::WindowStartMicros(whole(word)?),
            ["window-start-double", word] => Self::WindowStartDouble(seconds(word)?),
            ["window-end-us", word] => Self::WindowEndMicros(maybe(word)?),
            ["window-end-double", word] => Self::WindowEndDouble(seconds(word)?),
            ["tracks", word] => Self::Tracks(whole(word)?),
            ["track", at, field, word] => {
                Self::Track(place(at, TRACK_PLACES)?, TrackField::read(field, word)?)
            }
            ["frames", word] => Self::Frames(whole(word)?),
            ["frame", at, field, word] => {
                Self::Frame(place(at, FRAME_PLACES)?, FrameField::read(field, word)?)
            }
            _ => return None,
        })
    }
}

impl TrackField {
    fn read(field: &str, word: &str) -> Option<Self> {
        Some(match field {
            "kind" => Self::Kind(whole(word)?),
            "last-decode" => Self::LastDecode(maybe(word)?),
            "last-duration" => Self::LastDuration(maybe(word)?),
            "highest-end" => Self::HighestEnd(maybe(word)?),
            "need" => Self::Need(flag(word)?),
            _ => return None,
        })
    }
}

impl FrameField {
    fn read(field: &str, word: &str) -> Option<Self> {
        Some(match field {
            "track" => Self::Track(whole(word)?),
            "p" => Self::Presentation(whole(word)?),
            "d" => Self::Decode(whole(word)?),
            "duration" => Self::Duration(whole(word)?),
            "flag" => Self::Flag(whole(word)?),
            "number" => Self::Number(whole(word)?),
            "group" => Self::Group(whole(word)?),
            _ => return None,
        })
    }
}

/// A number, `unset`, or `unset:N`: unset, but the number kept is N.
fn maybe(word: &str) -> Option<Maybe> {
    let Some(kept) = word.strip_prefix("unset") else {
        return Some(Maybe::of(whole(word)?));
    };
    let value = match kept.strip_prefix(':') {
        Some(number) => whole(number)?,
        None if kept.is_empty() => 0,
        None => return None,
    };
    Some(Maybe { set: false, value })
}

/// A place, in scripts counted from 1.
fn place(word: &str, places: usize) -> Option<usize> {
    let number: usize = whole(word)?;
    (1..=places).contains(&number).then(|| number - 1)
}
