//! "Removing, aborting, setting": the set calls, and reading the settings back.

use crate::refusal::Refusal;
use crate::seconds::{End, Seconds};
use crate::state::{Maybe, Mode, State};
use crate::well_formed::check;

/// A window end as it is read back.
#[derive(Clone, Copy, Debug, PartialEq)]
pub enum WindowEnd {
    /// There is none.
    Unbounded,
    /// The double given.
    Seconds(f64),
}

/// The settings as they are read back, in seconds.
#[derive(Clone, Copy, Debug, PartialEq)]
pub struct Reading {
    /// The offset.
    pub offset: f64,
    /// The window start.
    pub window_start: f64,
    /// The window end.
    pub window_end: WindowEnd,
}

/// Setting sequence mode starts the next group where this one ends; setting segments mode changes
/// the mode only.
pub fn set_mode(state: &mut State, mode: Mode) -> Result<(), Refusal> {
    check(state)?;
    let head = &mut state.head;
    head.mode = mode;
    if mode == Mode::Sequence {
        head.group_start = Maybe::of(head.group_end);
    }
    Ok(())
}

/// Sets the offset, and in sequence mode the group start with it.
pub fn set_offset(state: &mut State, seconds: f64) -> Result<(), Refusal> {
    check(state)?;
    let offset = Seconds::given(seconds)?;
    let head = &mut state.head;
    head.settings.offset = offset;
    if head.mode == Mode::Sequence {
        head.group_start = Maybe::of(offset.micros);
    }
    Ok(())
}

/// Sets the window start.
pub fn set_window_start(state: &mut State, seconds: f64) -> Result<(), Refusal> {
    check(state)?;
    let start = Seconds::given(seconds)?;
    let settings = &mut state.head.settings;
    if start.micros < 0 || !settings.window_end.is_after(start.micros) {
        return Err(Refusal::Order);
    }
    settings.window_start = start;
    Ok(())
}

/// Sets the window end; plus infinity makes it unbounded.
pub fn set_window_end(state: &mut State, seconds: f64) -> Result<(), Refusal> {
    check(state)?;
    let end = End::given(seconds)?;
    let settings = &mut state.head.settings;
    if !end.is_after(settings.window_start.micros) {
        return Err(Refusal::Order);
    }
    settings.window_end = end;
    Ok(())
}

/// The three settings as they were last set.
pub fn read_settings(state: &State) -> Result<Reading, Refusal> {
    check(state)?;
    let settings = &state.head.settings;
    Ok(Reading {
        offset: settings.offset.double,
        window_start: settings.window_start.double,
        window_end: match settings.window_end.bounded {
            true => WindowEnd::Seconds(settings.window_end.time.double),
            false => WindowEnd::Unbounded,
        },
    })
}
