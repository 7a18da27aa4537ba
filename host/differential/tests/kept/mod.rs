//! A message that is kept, and its beacons, gone wrong in ways that look right.

use differential::images::set_message;
use differential::sides::Counted;
use model::image::{self, at};
use model::message::Message;
use model::state::Mode;
use model::{beacon, calls, State};

/// Takes any message in the state.
pub fn step(image: &mut [u8], frame: &[u8], room: &mut [u8]) -> u8 {
    let Some(kept) = without_message(image) else {
        return calls::step(image, frame, room);
    };
    let answer = calls::step(image, frame, room);
    image[at::REPEATS..at::ENDS].copy_from_slice(&kept);
    answer
}

/// What each does with the extended beacon, and the call.
pub const BEACONS: [(&str, Counted); 9] = [
    ("leaves the space out", |image, text| {
        said(image, text, |state, message| {
            let complete = beacon::complete(state);
            [complete.as_bytes(), message].concat()
        })
    }),
    ("says the filler too", |image, text| {
        said(image, text, |state, _| {
            let complete = beacon::complete(state);
            [complete.as_bytes(), b" ", &state.message.bytes].concat()
        })
    }),
    ("says the basic text first", |image, text| {
        said(image, text, |state, message| {
            let basic = beacon::basic(state);
            [basic.as_bytes(), b" ", message].concat()
        })
    }),
    ("wants repeats left", |image, text| {
        match image::load(image).map(|state| state.message) {
            Some(Message { repeats: 0, .. }) => (21, 0),
            _ => calls::beacon_extended(image, text),
        }
    }),
    ("wants SAFE", |image, text| {
        match image::load(image).map(|state| state.mode) {
            Some(Mode::Safe) | None => calls::beacon_extended(image, text),
            _ => (21, 0),
        }
    }),
    (
        "looks at the room first",
        |image, text| match calls::beacon_extended(image, text) {
            (21, _) if text.len() < 17 => (14, 0),
            given => given,
        },
    ),
    (
        "says the complete text where there is none",
        |image, text| match calls::beacon_extended(image, text) {
            (21, _) => calls::beacon_complete(image, text),
            given => given,
        },
    ),
    (
        "wants room for the longest",
        |image, text| match calls::beacon_extended(image, &mut [0; 33]) {
            (0, _) if text.len() < 33 => (14, 0),
            _ => calls::beacon_extended(image, text),
        },
    ),
    ("takes any message in the state", |image, text| {
        let mut bytes = image.to_vec();
        without_message(&mut bytes);
        calls::beacon_extended(&bytes, text)
    }),
];

/// Clears a message that is out of its limits, in an image that is long enough: what
/// stood there.
fn without_message(image: &mut [u8]) -> Option<Vec<u8>> {
    let kept = image.get(at::REPEATS..at::ENDS)?.to_vec();
    if image.len() != image::BYTES || image::load(image).is_some() {
        return None;
    }
    set_message(image, &Message::NONE);
    Some(kept)
}

/// An extended beacon that says something else of a state and its message.
fn said(image: &[u8], text: &mut [u8], say: fn(&State, &[u8]) -> Vec<u8>) -> (u8, usize) {
    let state = image::load(image);
    let other = state.and_then(|state| Some(say(&state, state.message.text()?)));
    match other {
        Some(other) if other.len() <= text.len() => {
            text[..other.len()].copy_from_slice(&other);
            (0, other.len())
        }
        Some(_) => (14, 0),
        None => calls::beacon_extended(image, text),
    }
}
