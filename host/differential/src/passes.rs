//! Passes from a seed: frames end to end, what stops them, and rooms about what
//! they need.

use crate::compare;
use crate::frames::{Maker, Stream};
use crate::images;
use crate::rng::Rng;
use crate::shrink::Pass;
use model::state::Last;
use model::table::{
    Field, Kind, FROM_GROUND, FROM_PAYLOAD, GREETING, KINDS, MODULES, ORDER, PAYLOAD, REPORT,
    THRESHOLDS, TIMED,
};
use model::{frame, image, message, report};
use std::sync::LazyLock;

/// The most frames of a pass.
pub const MOST: usize = 12;

/// A pass, and an image to start from: of a state in range mostly, else damaged.
pub fn case(rng: &mut Rng) -> (Vec<u8>, Pass) {
    let state = images::state(rng);
    let start = match rng.below(10) {
        0 => images::damaged(rng),
        _ => image::save(&state).to_vec(),
    };
    (start, any(rng, state.last))
}

/// A pass of up to [`MOST`] frames for a board with these last serials: by the
/// table mostly, often with a frame that is refused or cut off, at times damaged.
pub fn any(rng: &mut Rng, last: Last) -> Pass {
    let maker = match rng.below(8) {
        0 => Maker::Mutated,
        1 => Maker::Noise,
        _ => Maker::Structured,
    };
    let mut stream = Stream::new(maker).after(last);
    let count = rng.below(MOST + 1);
    let mut pieces: Vec<Vec<u8>> = (0..count).map(|_| stream.next(rng).0).collect();
    match rng.below(4) {
        0 => pieces.push(rng.one(&TAILS).clone()),
        1 => {
            let place = rng.below(pieces.len() + 1);
            pieces.insert(place, rng.one(&REFUSED).clone());
        }
        _ => {}
    }
    let room = room(rng, pieces.len());
    (pieces, room)
}

/// A reply room about what so many frames need, or some of them.
fn room(rng: &mut Rng, frames: usize) -> u8 {
    let some = rng.below(frames + 1);
    let need = report::BYTES * rng.pick(&[frames, some]);
    let beyond = rng.below(report::BYTES + 2);
    let room = match rng.below(6) {
        0 => need.saturating_sub(1),
        1 => need + 1,
        2 => beyond,
        3 => need + beyond,
        _ => need,
    };
    room.min(compare::REPLIES) as u8
}

/// So many frames that get a report, for a board with these last serials.
pub fn reported(rng: &mut Rng, last: Last, count: usize) -> Vec<Vec<u8>> {
    let mut stream = Stream::new(Maker::Structured).after(last);
    let mut frames = Vec::new();
    while frames.len() < count {
        let (frame, _) = stream.next(rng);
        if frame::read(&frame).is_ok() {
            frames.push(frame);
        }
    }
    frames
}

/// A frame of a kind with every field at its lowest value that is in range.
fn lowest(kind: &Kind) -> Vec<u8> {
    let mut frame = vec![kind.byte];
    for field in kind.fields {
        frame.extend(&field.low.to_be_bytes()[2 - field.bytes..]);
    }
    frame.resize(kind.total, 0);
    frame
}

/// Every start of a frame of every kind, but for none of it and all of it: refused
/// with 5 where nothing stands behind it.
pub static TAILS: LazyLock<Vec<Vec<u8>>> = LazyLock::new(tails);

/// Frames that are refused with 4, 6 and 7, whatever the state: each field beside
/// each end of its range, and all that only the ground may.
pub static REFUSED: LazyLock<Vec<Vec<u8>>> =
    LazyLock::new(|| [unknown(), out_of_range(), not_permitted()].concat());

fn tails() -> Vec<Vec<u8>> {
    let starts = |kind: &Kind| {
        let whole = lowest(kind);
        (1..whole.len()).map(move |length| whole[..length].to_vec())
    };
    KINDS.iter().flat_map(starts).collect()
}

/// Kinds beside those that are read, alone and with a body.
fn unknown() -> Vec<Vec<u8>> {
    let kinds = [0, KINDS.len() as u8 + 1, 0x7F, 0x80, REPORT, 0xFF];
    let long = |kind: u8| [vec![kind], vec![0; report::BYTES - 1]].concat();
    kinds
        .into_iter()
        .flat_map(|kind| [vec![kind], long(kind)])
        .collect()
}

fn out_of_range() -> Vec<Vec<u8>> {
    let mut frames = Vec::new();
    for kind in &KINDS {
        let mut at = 1;
        for field in kind.fields {
            for value in beside(field) {
                let mut frame = lowest(kind);
                frame[at..at + field.bytes]
                    .copy_from_slice(&value.to_be_bytes()[2 - field.bytes..]);
                frames.push(frame);
            }
            at += field.bytes;
        }
    }
    // Descend above ascend, and timed orders for the core four.
    frames.push(vec![THRESHOLDS, FROM_GROUND, 0, 1, 0x1B, 0x58, 0x1B, 0x59]);
    let core = MODULES.iter().filter(|module| module.core);
    frames.extend(core.map(|module| vec![TIMED, FROM_GROUND, 0, 1, module.number, 0, 20]));
    // Greetings with a byte that is not of the alphabet, with a space out of its place,
    // and with filler that is not 0.
    for (length, text) in [
        (2, &b"hI"[..]),
        (3, b"HI;"),
        (3, b"HI\0"),
        (3, b" HI"),
        (3, b"HI "),
        (4, b"H  I"),
        (2, b"HI?"),
        (0, b"\0\0\0\0\0\0\0\0\0\0\0\0\0\0\0E"),
    ] {
        frames.push(greeting(FROM_GROUND, length, text));
    }
    frames
}

/// A greeting with a text, and the length that it is said to have.
fn greeting(origin: u8, length: u8, text: &[u8]) -> Vec<u8> {
    let mut frame = vec![GREETING, origin, 0, 1, 1, length];
    frame.extend(text);
    frame.resize(6 + message::BYTES, 0);
    frame
}

/// The values beside both ends of a field's range that it can hold.
fn beside(field: &Field) -> Vec<u16> {
    let most = if field.bytes == 1 { 0xFF } else { u16::MAX };
    let below = field.low.checked_sub(1);
    let above = Some(field.high)
        .filter(|high| *high < most)
        .map(|high| high + 1);
    below.into_iter().chain(above).collect()
}

fn not_permitted() -> Vec<Vec<u8>> {
    let mut frames = vec![
        vec![THRESHOLDS, FROM_PAYLOAD, 0, 1, 0x1C, 0xE8, 0x1B, 0x58],
        greeting(FROM_PAYLOAD, 2, b"HI"),
        greeting(FROM_PAYLOAD, 0, b""),
    ];
    for module in MODULES.iter().filter(|module| module.number != PAYLOAD) {
        for wanted in [0, 1] {
            frames.push(vec![ORDER, FROM_PAYLOAD, 0, 1, module.number, wanted]);
        }
        if !module.core {
            frames.push(vec![TIMED, FROM_PAYLOAD, 0, 1, module.number, 0, 20]);
        }
    }
    frames
}
