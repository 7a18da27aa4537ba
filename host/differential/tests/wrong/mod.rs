//! Passes that go wrong in ways that look right; [`seconds`] has seconds that do,
//! [`greetings`] greetings and their messages, [`trackers`] and [`ranges`] panel trackers.

pub mod greetings;
pub mod ranges;
pub mod seconds;
pub mod trackers;

use differential::sides::{Pass, Track};
use model::{calls, frame, image, report};

/// What each does, and the pass.
pub const PASSES: [(&str, Pass); 16] = [
    ("stops at a repeat", |image, frames, room| {
        by_steps(image, frames, room, |answer| {
            has_report(answer) && answer != 8
        })
    }),
    ("stops at a stale order", |image, frames, room| {
        by_steps(image, frames, room, |answer| {
            has_report(answer) && answer != 9
        })
    }),
    (
        "stops at an order that comes too early",
        |image, frames, room| {
            by_steps(image, frames, room, |answer| {
                has_report(answer) && answer != 10
            })
        },
    ),
    ("goes on behind a bad field", |image, frames, room| {
        by_steps(image, frames, room, |answer| {
            has_report(answer) || answer == 6
        })
    }),
    (
        "counts the frame that is refused",
        |image, frames, room| match calls::pass(image, frames, room) {
            (refusal @ 4..=7, reported) => (refusal, reported + 1),
            stopped => stopped,
        },
    ),
    ("counts bytes", |image, frames, room| {
        let (answer, reported) = calls::pass(image, frames, room);
        (answer, report::BYTES * reported)
    }),
    (
        "counts nothing on an image that is none",
        |image, frames, room| match calls::pass(image, frames, room) {
            (1, _) => (1, usize::MAX),
            stopped => stopped,
        },
    ),
    (
        "writes each report over the one before",
        |image, frames, room| {
            let (answer, reported) = calls::pass(image, frames, room);
            let last = report::BYTES * reported.saturating_sub(1);
            room.copy_within(last..report::BYTES * reported, 0);
            (answer, reported)
        },
    ),
    (
        "clears the room behind the last report",
        |image, frames, room| {
            let (answer, reported) = calls::pass(image, frames, room);
            room[report::BYTES * reported..].fill(0);
            (answer, reported)
        },
    ),
    (
        "wants a byte more than a report has",
        |image, frames, room| {
            let less = room.len().saturating_sub(1);
            calls::pass(image, frames, &mut room[..less])
        },
    ),
    (
        "looks at the frame before the room",
        |image, frames, room| {
            let (answer, reported) = calls::pass(image, frames, room);
            let rest = (0..reported).fold(frames, |rest, _| frame::cut(rest).1);
            let refusal = frame::read(frame::cut(rest).0).err();
            match answer {
                2 => (refusal.unwrap_or(2), reported),
                _ => (answer, reported),
            }
        },
    ),
    (
        "takes a tail for the end",
        |image, frames, room| match calls::pass(image, frames, room) {
            (5, reported) => (0, reported),
            stopped => stopped,
        },
    ),
    (
        "refuses no bytes",
        |image, frames, room| match calls::pass(image, frames, room) {
            (0, 0) => (3, 0),
            stopped => stopped,
        },
    ),
    (
        "wants room for no bytes",
        |image, frames, room| match calls::pass(image, frames, room) {
            (0, 0) if room.len() < report::BYTES => (2, 0),
            stopped => stopped,
        },
    ),
    (
        "takes any image with no bytes",
        |image, frames, room| match frames {
            [] => (0, 0),
            _ => calls::pass(image, frames, room),
        },
    ),
    ("undoes a pass that is stopped", |image, frames, room| {
        let before = image.to_vec();
        let (answer, reported) = calls::pass(image, frames, room);
        if answer != 0 {
            image.copy_from_slice(&before);
        }
        (answer, reported)
    }),
];

/// All wrong panel trackers.
pub fn all_trackers() -> impl Iterator<Item = (&'static str, Track)> {
    let moving = trackers::JUDGED.into_iter().chain(trackers::MOVED);
    moving.chain(ranges::TAKEN).chain(ranges::REFUSED)
}

fn has_report(answer: u8) -> bool {
    matches!(answer, 0 | 8..=10)
}

/// Single steps in order, as long as something holds of the answer.
fn by_steps(
    image: &mut [u8],
    mut frames: &[u8],
    room: &mut [u8],
    goes_on: fn(u8) -> bool,
) -> (u8, usize) {
    if image::load(image).is_none() {
        return (1, 0);
    }
    let mut reported = 0;
    while !frames.is_empty() {
        let (frame, rest) = frame::cut(frames);
        let answer = calls::step(image, frame, &mut room[report::BYTES * reported..]);
        if !goes_on(answer) {
            return (answer, reported);
        }
        reported += usize::from(has_report(answer));
        frames = rest;
    }
    (0, reported)
}
