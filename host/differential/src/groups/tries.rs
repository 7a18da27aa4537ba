//! Tries that a module keeps: every power in every second, modules that short about
//! the 60 seconds that bring their tries back, and at once.

use super::{fly, Verdict, MODES, ROOM};
use crate::compare::hex;
use crate::images;
use crate::rng::Rng;
use crate::shorting;
use crate::sides::Calls;
use model::image::{self, code};
use model::state::{Mode, FAILED_SECONDS};
use model::table::{MODULES, TICK};
use model::State;

/// Every number of a module and the first beyond, requested or not, short or not, for
/// each module in every mode: a tick's step.
pub fn every_power(sides: &[Calls; 2], rng: &mut Rng) -> Verdict {
    let mut made = 0;
    for mode in MODES {
        for row in &MODULES {
            for number in 0..=code::FAILED + FAILED_SECONDS + 1 {
                for requested in [0, code::REQUESTED] {
                    let mut bytes = image::save(&images::state_in(rng, mode));
                    images::set_module(&mut bytes, row.number.into(), requested + number);
                    for shorts in [rng.byte() & !row.bit(), rng.byte() | row.bit()] {
                        made += fly(sides, &bytes, vec![(vec![TICK, shorts], ROOM)])?.0;
                    }
                }
            }
        }
    }
    Ok(made)
}

/// Flights in which modules start, short, stay for 60 seconds, are switched off on
/// purpose, fail, and are started again.
pub fn modules_that_short(sides: &[Calls; 2], rng: &mut Rng) -> Verdict {
    let mut made = 0;
    while made < 1_500_000 {
        let (start, shots) = shorting::flight(rng);
        made += fly(sides, &image::save(&start), shots)?.0;
    }
    Ok(made)
}

/// A board on which each module shorts in every second that finds it on: all have
/// failed after 10, and are on in one of 602 from then.
pub fn starts_and_shorts(sides: &[Calls; 2], _: &mut Rng) -> Verdict {
    let mut state = State::fresh();
    (state.mode, state.tension) = (Mode::Safe, 8_000);
    for module in &mut state.modules {
        module.requested = true;
    }
    state.gather_masks();
    let mut image = image::save(&state).to_vec();
    let (mut made, mut on) = (0, 0);
    for second in 1..=4_000_u32 {
        let (steps, after) = fly(sides, &image, vec![(vec![TICK, on], ROOM)])?;
        let masks = image::load(&after).map(|state| (state.masks.on, state.masks.failed));
        let wanted = match second.checked_sub(10).map(|since| since % 602) {
            None if second % 2 == 0 => (0, 0),
            None | Some(601) => (0xFF, 0),
            Some(_) => (0, 0xFF),
        };
        if masks != Some(wanted) {
            return Err(format!("after {second} seconds: {}", hex(&after)));
        }
        (image, on) = (after, wanted.0);
        made += steps;
    }
    Ok(made)
}
