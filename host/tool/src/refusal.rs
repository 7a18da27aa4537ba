//! Why a frame is refused, in words.

use crate::morse;
use crate::tables::{greeted, meaning, GREETING};
use ems::answer;

/// What a refusal's number says of a frame.
pub fn reason(frame: &[u8], refusal: u8) -> String {
    match (frame, refusal) {
        ([GREETING, ..], answer::BAD_FIELD) => of_greeting(frame),
        _ => meaning(refusal).to_string(),
    }
}

/// What is wrong with a greeting: its text, if the keyer doesn't take it.
fn of_greeting(frame: &[u8]) -> String {
    match greeted(frame).and_then(morse::fault) {
        Some(fault) => format!("the greeting can't be keyed: {fault}"),
        None => "the origin, the length or a byte past the text is outside its range".to_string(),
    }
}
