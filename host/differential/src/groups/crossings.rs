//! Crossings and requests: every mask of them about a judgement of the mode, and flights
//! in which core modules are ordered off and on between crossings.
//!
//! What each frame may do to the requests is looked at on the images too, whatever the two
//! sides agree on.

use super::{step, Verdict, ROOM};
use crate::compare::hex;
use crate::crossings;
use crate::in_image;
use crate::rng::Rng;
use crate::shrink::Shot;
use crate::sides::Calls;
use model::image;
use model::state::{Mode, CONTROL_TICKS};
use model::table::TICK;

/// Control counts before a tick that judges nothing, and before one that judges.
const COUNTS: [u8; 2] = [CONTROL_TICKS - 2, CONTROL_TICKS - 1];

/// Every mask of requests in RECOVERY and SAFE, with modules in powers of all sorts, with
/// ends and without, below, at and above each threshold and before any reading: a tick
/// that judges, and one that doesn't.
pub fn requests_about_a_crossing(sides: &[Calls; 2], rng: &mut Rng) -> Verdict {
    let mut made = 0;
    while made < 500_000 {
        for mode in [Mode::Recovery, Mode::Safe] {
            for control in COUNTS {
                for requested in 0..=u8::MAX {
                    for ends in [false, true] {
                        let mut state = crossings::board(rng, mode, control, requested, ends);
                        for tension in crossings::tensions(&state).into_iter().chain([0]) {
                            state.tension = tension;
                            let shorts = rng.byte() & rng.byte();
                            let tick = (vec![TICK, shorts], ROOM);
                            leaves_requests(sides, &image::save(&state), tick)?;
                            made += 1;
                        }
                    }
                }
            }
        }
    }
    Ok(made)
}

/// Flights with readings about the thresholds, in which core modules are ordered off and
/// on between crossings.
pub fn core_ordered_between(sides: &[Calls; 2], rng: &mut Rng) -> Verdict {
    let mut made = 0;
    while made < 500_000 {
        let (start, shots) = crossings::flight(rng);
        let mut image = image::save(&start).to_vec();
        for shot in shots {
            image = leaves_requests(sides, &image, shot)?;
            made += 1;
        }
    }
    Ok(made)
}

/// A step that moves no requests but those that its frame may move: the image.
fn leaves_requests(sides: &[Calls; 2], image: &[u8], shot: Shot) -> Result<Vec<u8>, String> {
    let stepped = step(sides, image, shot.clone())?;
    let after = stepped.image();
    let (frame, room) = shot;
    let wanted = crossings::requests_left(image, &frame, stepped.answer, after);
    let given = in_image::requested(after);
    match given == wanted {
        true => Ok(after.to_vec()),
        false => Err(format!(
            "a flight from {}\n  {} (room {room})\nrequested {given:02X}, and not {wanted:02X}",
            hex(image),
            hex(&frame),
        )),
    }
}
