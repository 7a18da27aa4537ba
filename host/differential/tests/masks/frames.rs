//! Frames that leave the masks untrue, or report others.

use model::frame::{self, Body};
use model::masks::Masks;
use model::state::Mode;
use model::table::MISSION;
use model::{calls, image, State};

/// A step, as `ems_step` is called.
pub type Step = fn(&mut [u8], &[u8], &mut [u8]) -> u8;

/// What a step does, and the step, by a rule.
macro_rules! leaves {
    ($name:literal, $rule:expr) => {
        ($name, |image, frame, room| left(image, frame, room, $rule))
    };
}

/// What each does, and the step.
pub const LEFT: [(&str, Step); 17] = [
    leaves!("sets the on mask at an order", |_, after, body| {
        if let Body::Order { module, on: true } = body {
            after.masks.on |= 1 << module;
        }
    }),
    leaves!("clears the on mask at an order", |_, after, body| {
        if let Body::Order { module, on: false } = body {
            after.masks.on &= !(1 << module);
        }
    }),
    leaves!(
        "leaves the requested mask at an order",
        |before, after, body| {
            if let Body::Order { .. } = body {
                after.masks.requested = before.masks.requested;
            }
        }
    ),
    leaves!(
        "leaves the requested mask at a timed order",
        |before, after, body| {
            if let Body::Timed { .. } = body {
                after.masks.requested = before.masks.requested;
            }
        }
    ),
    leaves!(
        "leaves the requested mask as an end runs out",
        |before, after, _| {
            let fell = before.mode != after.mode;
            let ends = before.ends.iter().zip(after.ends).zip(MISSION);
            for ((had, has), module) in ends {
                if (*had, has, fell) == (1, 0, false) {
                    after.masks.requested |= before.masks.requested & 1 << module;
                }
            }
        }
    ),
    leaves!(
        "leaves the requested mask as the mode falls",
        |before, after, _| {
            if before.mode == Mode::Safe && after.mode == Mode::Recovery {
                after.masks.requested |= before.masks.requested;
            }
        }
    ),
    leaves!(
        "sets the core four in the requested mask as the mode rises",
        |before, after, _| {
            if before.mode == Mode::Recovery && after.mode == Mode::Safe {
                after.masks.requested |= 0x27;
            }
        }
    ),
    leaves!(
        "clears the requested mask as a module fails",
        |before, after, _| {
            after.masks.requested &= !(after.masks.failed & !before.masks.failed);
        }
    ),
    leaves!(
        "has in the requested mask what RECOVERY allows",
        |_, after, _| {
            if after.mode == Mode::Recovery {
                after.masks.requested &= 0x27;
            }
        }
    ),
    leaves!(
        "leaves the on mask as a module starts",
        |before, after, _| {
            after.masks.on &= before.masks.on;
        }
    ),
    leaves!(
        "leaves the on mask as a module shorts",
        |before, after, body| {
            if let Body::Tick(shorts) = body {
                after.masks.on |= before.masks.on & shorts;
            }
        }
    ),
    leaves!(
        "leaves the on mask as a module is not wanted",
        |before, after, body| {
            if let Body::Tick(shorts) = body {
                after.masks.on |= before.masks.on & !shorts;
            }
        }
    ),
    leaves!(
        "leaves the failed mask as a failed module starts",
        |before, after, _| {
            after.masks.failed |= before.masks.failed;
        }
    ),
    leaves!(
        "leaves the failed mask as one that is on fails",
        |before, after, _| {
            let newly = after.masks.failed & !before.masks.failed;
            after.masks.failed &= !(newly & before.masks.on);
        }
    ),
    leaves!(
        "leaves the failed mask as one that is off fails",
        |before, after, _| {
            let newly = after.masks.failed & !before.masks.failed;
            after.masks.failed &= !(newly & !before.masks.on);
        }
    ),
    leaves!(
        "makes the masks before the modules' second",
        |before, after, _| {
            (after.masks.on, after.masks.failed) = (before.masks.on, before.masks.failed);
        }
    ),
    (
        "reports the masks before the frame",
        |image, frame, room| {
            let before = image::load(image);
            let answer = calls::step(image, frame, room);
            if let (Some(before), 0) = (before, answer) {
                report(room, before.masks);
            }
            answer
        },
    ),
];

/// A step after which a rule changes the masks that a frame has left which is done: of the
/// state before, the state after and what the frame asks for. The report has them too.
fn left(image: &mut [u8], frame: &[u8], room: &mut [u8], rule: fn(&State, &mut State, Body)) -> u8 {
    let before = image::load(image);
    let answer = calls::step(image, frame, room);
    let body = frame::read(frame).map(|frame| frame.body);
    if let (Some(before), Some(mut after), 0, Ok(body)) = (before, image::load(image), answer, body)
    {
        rule(&before, &mut after, body);
        image.copy_from_slice(&image::save(&after));
        report(room, after.masks);
    }
    answer
}

/// Puts other masks into a report.
fn report(room: &mut [u8], masks: Masks) {
    room[7..10].copy_from_slice(&[masks.requested, masks.on, masks.failed]);
}
