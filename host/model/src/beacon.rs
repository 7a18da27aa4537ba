//! The beacon's three texts.

use crate::state::{Mode, State};

/// The basic text.
pub fn basic(state: &State) -> String {
    format!("EMS {} {:04}", letter(state.mode), state.tension)
}

/// The letter that a mode has in all texts.
fn letter(mode: Mode) -> char {
    match mode {
        Mode::Waiting(_) | Mode::Settling(_) => 'D',
        Mode::Recovery => 'R',
        Mode::Safe => 'S',
    }
}

/// The complete text.
pub fn complete(state: &State) -> String {
    let (on, failed) = (state.masks.on, state.masks.failed);
    format!("{} {on:02X} {failed:02X}", basic(state))
}

/// The extended text; none where no message is kept.
pub fn extended(state: &State) -> Option<String> {
    let message = state.message.text()?.iter().map(|&byte| char::from(byte));
    Some(format!(
        "{} {}",
        complete(state),
        message.collect::<String>()
    ))
}
