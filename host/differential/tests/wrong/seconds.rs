//! Seconds of a module that go wrong in ways that look right.

use model::report::{self, Report};
use model::state::{Mode, Power};
use model::table::{MODULES, TICK};
use model::{calls, image};

/// A step, as `ems_step` is called.
pub type Step = fn(&mut [u8], &[u8], &mut [u8]) -> u8;

/// What each does, and the step.
pub const SECONDS: [(&str, Step); 14] = [
    ("gives five tries at a short", |image, frame, room| {
        by(image, frame, room, |power, _, short| match power {
            Power::On { .. } if short => Some(Power::Off(5)),
            _ => None,
        })
    }),
    ("gives five tries at a start", |image, frame, room| {
        by(image, frame, room, |power, wanted, short| match power {
            Power::Off(_) if wanted && !short => Some(on(5, 0)),
            _ => None,
        })
    }),
    ("gives a failed one five tries", |image, frame, room| {
        by(image, frame, room, |power, wanted, short| match power {
            Power::Failed(0) if wanted && !short => Some(on(5, 0)),
            _ => None,
        })
    }),
    (
        "gives one that is not wanted five tries",
        |image, frame, room| {
            by(image, frame, room, |power, wanted, short| match power {
                Power::On { .. } if !wanted && !short => Some(Power::Off(5)),
                _ => None,
            })
        },
    ),
    ("takes no try from one that is on", |image, frame, room| {
        by(image, frame, room, |power, _, short| match power {
            Power::On { tries, .. } if short => Some(Power::Off(tries)),
            _ => None,
        })
    }),
    ("never fails one that is on", |image, frame, room| {
        by(image, frame, room, |power, _, short| match power {
            Power::On { tries: 1, .. } if short => Some(Power::Off(1)),
            _ => None,
        })
    }),
    (
        "switches off before it sees the short",
        |image, frame, room| {
            by(image, frame, room, |power, wanted, short| match power {
                Power::On { tries, .. } if !wanted && short => Some(Power::Off(tries)),
                _ => None,
            })
        },
    ),
    (
        "takes a short in the 60th second from five tries",
        |image, frame, room| {
            by(image, frame, room, |power, _, short| match power {
                Power::On { seconds: 59, .. } if short => Some(Power::Off(4)),
                _ => None,
            })
        },
    ),
    (
        "brings the tries back after 59 seconds",
        |image, frame, room| {
            by(image, frame, room, |power, wanted, short| match power {
                Power::On { seconds: 58, .. } if wanted && !short => Some(on(5, 0)),
                _ => None,
            })
        },
    ),
    (
        "brings one try back after 60 seconds",
        |image, frame, room| {
            by(image, frame, room, |power, wanted, short| match power {
                Power::On { tries, seconds: 59 } if wanted && !short => Some(on(tries + 1, 0)),
                _ => None,
            })
        },
    ),
    ("never brings the tries back", |image, frame, room| {
        by(image, frame, room, |power, wanted, short| match power {
            Power::On { seconds: 59, .. } if wanted && !short => Some(power),
            _ => None,
        })
    }),
    ("counts the second that starts it", |image, frame, room| {
        by(image, frame, room, |power, wanted, short| match power {
            Power::Off(tries @ 1..=4) if wanted && !short => Some(on(tries, 1)),
            Power::Failed(0) if wanted && !short => Some(on(1, 1)),
            _ => None,
        })
    }),
    // An image has no seconds of a module that is off: these are the most it had.
    ("keeps the seconds over a restart", |image, frame, room| {
        by(image, frame, room, |power, wanted, short| match power {
            Power::Off(tries @ 1..=4) if wanted && !short => Some(on(tries, 59)),
            _ => None,
        })
    }),
    ("counts on with five tries", |image, frame, room| {
        by(image, frame, room, |power, wanted, short| match power {
            Power::On { tries: 5, .. } if wanted && !short => Some(on(5, 1)),
            _ => None,
        })
    }),
];

fn on(tries: u16, seconds: u16) -> Power {
    Power::On { tries, seconds }
}

/// A step by a rule, which makes another power of a module's power before a tick's
/// module stage, of whether the module is wanted, and of whether it is short; where it
/// makes none, the right one stands.
fn by(
    image: &mut [u8],
    frame: &[u8],
    room: &mut [u8],
    rule: fn(Power, bool, bool) -> Option<Power>,
) -> u8 {
    let before = image::load(image);
    let answer = calls::step(image, frame, room);
    let (Some(before), Some(mut after), 0, &[TICK, shorts]) =
        (before, image::load(image), answer, frame)
    else {
        return answer;
    };
    if before.mode.deploying() {
        return answer;
    }
    let modules = after.modules.iter_mut().zip(before.modules);
    for ((module, earlier), row) in modules.zip(&MODULES) {
        let allowed = row.core || after.mode == Mode::Safe;
        let wanted = module.requested && allowed;
        let other = rule(earlier.power, wanted, shorts & row.bit() != 0);
        module.power = other.unwrap_or(module.power);
    }
    after.gather_masks();
    image.copy_from_slice(&image::save(&after));
    if let Some(bytes) = room.first_chunk_mut::<{ report::BYTES }>() {
        let (on, failed) = (after.masks.on, after.masks.failed);
        let right = Report::from_bytes(bytes);
        *bytes = Report {
            on,
            failed,
            ..right
        }
        .bytes();
    }
    answer
}
