//! Boards on which a better battery does harm, each in its way.

use differential::two_craft::Broken;
use model::report::Report;
use model::state::{Mode, Power, FAILED_SECONDS};
use model::table::MODULES;
use model::{calls, image, State};

/// A step, as `ems_step` is called.
pub type Step = fn(&mut [u8], &[u8], &mut [u8]) -> u8;

/// What a board does, the promise that it breaks, and the step, by a rule.
macro_rules! harms {
    ($name:literal, $broken:expr, $rule:expr) => {
        ($name, $broken, |image, frame, room| {
            by(image, frame, room, $rule)
        })
    };
}

/// What each does, the promise that it breaks, and the step.
pub const HARMFUL: [(&str, Broken, Step); 6] = [
    harms!("takes 9,000 mV for no reading", Broken::Mode, |_, after| {
        if after.tension == 9_000 {
            after.tension = 0;
        }
    }),
    harms!(
        "drops the request of a mission module above 8,500 mV",
        Broken::Requested,
        |_, after| {
            for (module, row) in after.modules.iter_mut().zip(&MODULES) {
                module.requested &= row.core || after.tension <= 8_500;
            }
        }
    ),
    harms!(
        "switches the mission four off above 8,500 mV",
        Broken::On,
        |_, after| {
            for (module, row) in after.modules.iter_mut().zip(&MODULES) {
                if let (Power::On { tries, .. }, false) = (module.power, row.core) {
                    if after.tension > 8_500 {
                        module.power = Power::Off(tries);
                    }
                }
            }
        }
    ),
    harms!(
        "fails a module at its fourth short",
        Broken::On,
        |_, after| {
            for module in &mut after.modules {
                if module.power == Power::Off(1) {
                    module.power = Power::Failed(FAILED_SECONDS);
                }
            }
        }
    ),
    harms!(
        "takes two tries at a short in SAFE",
        Broken::Core,
        |before, after| {
            let modules = before.modules.iter().zip(&mut after.modules);
            for (own, module) in modules {
                let (Power::On { tries, .. } | Power::Off(tries)) = own.power else {
                    continue;
                };
                match module.power {
                    Power::Off(left @ 2..) if left < tries && after.mode == Mode::Safe => {
                        module.power = Power::Off(left - 1);
                    }
                    _ => {}
                }
            }
        }
    ),
    harms!(
        "counts no seconds in RECOVERY",
        Broken::Core,
        |before, after| {
            let modules = before.modules.iter().zip(&mut after.modules);
            for (own, module) in modules {
                if let (Power::On { .. }, Power::On { .. }, Mode::Recovery) =
                    (own.power, module.power, after.mode)
                {
                    module.power = own.power;
                }
            }
        }
    ),
];

/// A step after which a rule changes the state that a frame has left which is done: of the
/// state before it and the state after it.
fn by(image: &mut [u8], frame: &[u8], room: &mut [u8], rule: fn(&State, &mut State)) -> u8 {
    let before = image::load(image);
    let answer = calls::step(image, frame, room);
    if let (Some(before), Some(mut after), 0) = (before, image::load(image), answer) {
        rule(&before, &mut after);
        after.gather_masks();
        image.copy_from_slice(&image::save(&after));
        if let Some(bytes) = room.first_chunk_mut() {
            let own = Report::from_bytes(bytes);
            *bytes = Report {
                requested: after.masks.requested,
                on: after.masks.on,
                failed: after.masks.failed,
                ..own
            }
            .bytes();
        }
    }
    answer
}
