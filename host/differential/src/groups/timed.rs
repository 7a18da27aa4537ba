//! Timed orders: their fields about every limit, ends that run out, the longest.

use super::{fly, Verdict, MODES, ROOM};
use crate::compare::hex;
use crate::frames::{Maker, Stream};
use crate::images;
use crate::rng::Rng;
use crate::shrink::Shot;
use crate::sides::Calls;
use model::image;
use model::state::{Mode, END_SECONDS};
use model::table::{self, FROM_GROUND, FROM_PAYLOAD, MISSION, PAYLOAD};
use model::State;

fn timed(origin: u8, serial: u16, module: u8, minutes: u16) -> Shot {
    let ([high, low], [more, less]) = (serial.to_be_bytes(), minutes.to_be_bytes());
    let frame = vec![table::TIMED, origin, high, low, module, more, less];
    (frame, ROOM)
}

/// Origins, modules, minutes and distances of the serial about their limits, each
/// with each, in every mode; then every number of minutes.
pub fn timed_orders(sides: &[Calls; 2], rng: &mut Rng) -> Verdict {
    let mut made = 0;
    for _ in 0..180 {
        for mode in MODES {
            let state = images::state_in(rng, mode);
            let start = image::save(&state);
            for origin in [0, FROM_GROUND, FROM_PAYLOAD, 3] {
                for module in (0..=8).chain([rng.byte()]) {
                    for minutes in [0, 1, rng.between(2, 1_439), 1_440, 1_441] {
                        for distance in [0, 1, 32_767, 32_768, 65_535] {
                            let serial = state.last.of(origin).wrapping_add(distance);
                            let order = timed(origin, serial, module, minutes);
                            made += fly(sides, &start, vec![order])?.0;
                        }
                    }
                }
            }
        }
    }
    for minutes in 0..=u16::MAX {
        let state = images::state_in(rng, Mode::Safe);
        for (origin, module) in [(FROM_GROUND, rng.pick(&MISSION)), (FROM_PAYLOAD, PAYLOAD)] {
            let serial = state.last.of(origin).wrapping_add(1);
            let order = timed(origin, serial, module, minutes);
            made += fly(sides, &image::save(&state), vec![order])?.0;
        }
    }
    Ok(made)
}

/// Short flights from every mode with ends that run out within them; orders, plain
/// and timed, come between the ticks, and so do crossings.
pub fn ends_run_out(sides: &[Calls; 2], rng: &mut Rng) -> Verdict {
    let mut made = 0;
    while made < 1_000_000 {
        let mode = rng.pick(&MODES);
        let mut state = images::state_in(rng, mode);
        state.ends = std::array::from_fn(|_| rng.below(8) as u32);
        let mut stream = Stream::new(Maker::Structured).after(state.last);
        let shots = (0..10).map(|_| stream.next(rng)).collect();
        made += fly(sides, &image::save(&state), shots)?.0;
    }
    Ok(made)
}

/// A timed order of a day, second by second to its end and a minute past it.
pub fn longest_end(sides: &[Calls; 2], rng: &mut Rng) -> Verdict {
    let mut state = State::fresh();
    (state.mode, state.tension) = (Mode::Safe, 8_000);
    let tick = |rng: &mut Rng| {
        let shorts = if rng.once_in(9) { rng.byte() } else { 0 };
        (vec![table::TICK, shorts], ROOM)
    };
    let requested = |image: &[u8]| {
        let state = image::load(image);
        state.is_some_and(|state| state.modules[usize::from(PAYLOAD)].requested)
    };
    let mut shots = vec![timed(FROM_PAYLOAD, 1, PAYLOAD, 1_440)];
    shots.extend((1..END_SECONDS).map(|_| tick(rng)));
    let (mut made, last_second) = fly(sides, &image::save(&state), shots)?;
    for (ticks, wanted) in [(0, true), (1, false), (60, false)] {
        let shots = (0..ticks).map(|_| tick(rng)).collect();
        let (steps, end) = fly(sides, &last_second, shots)?;
        if requested(&end) != wanted {
            return Err(format!("requested is not {wanted}: {}", hex(&end)));
        }
        made += steps;
    }
    Ok(made)
}
