//! Frames: whole flights, every room, every serial.

use super::{asked, fly, Verdict, ROOM};
use crate::compare::hex;
use crate::frames::{Maker, Stream};
use crate::images;
use crate::messages;
use crate::rng::Rng;
use crate::shrink::Shot;
use crate::sides::Calls;
use model::image;
use model::state::{Last, Mode};
use model::table::{self, FROM_GROUND, FROM_PAYLOAD};
use model::State;

/// Flights from the fresh start, deployed, and from any state in range.
pub fn of(sides: &[Calls; 2], rng: &mut Rng, maker: Maker, calls: u64) -> Verdict {
    let mut made = 0;
    while made < calls {
        let state = images::state(rng);
        let mut stream = Stream::new(maker);
        if rng.once_in(2) {
            stream = stream.after(state.last);
        }
        let frames = rng.pick(&[1, 10, 100, 2_000]);
        let mut shots: Vec<Shot> = (0..frames).map(|_| stream.next(rng)).collect();
        let start = if rng.once_in(3) {
            if frames > 1_000 {
                // Antennas out, so that the flight gets beyond the waiting.
                shots.insert(0, (vec![table::ANTENNAS, 1], ROOM));
            }
            image::save(&State::fresh()).to_vec()
        } else {
            image::save(&state).to_vec()
        };
        let (steps, end) = fly(sides, &start, shots)?;
        made += steps + asked(sides, rng, &end)?;
    }
    Ok(made)
}

/// A day of waiting for antennas that are never reported, the settling, and the
/// first minutes of RECOVERY.
pub fn longest_wait(sides: &[Calls; 2], rng: &mut Rng) -> Verdict {
    let tick = |rng: &mut Rng| {
        let shorts = if rng.once_in(9) { rng.byte() } else { 0 };
        (vec![table::TICK, shorts], ROOM)
    };
    let shots = (0..88_000).map(|_| tick(rng)).collect();
    let (steps, end) = fly(sides, &image::save(&State::fresh()), shots)?;
    if !image::load(&end).is_some_and(|state| state.mode == Mode::Recovery) {
        return Err(format!("not in RECOVERY: {}", hex(&end)));
    }
    Ok(steps)
}

/// Every room length from 0 to 12, with frames that get every answer.
pub fn rooms(sides: &[Calls; 2], rng: &mut Rng) -> Verdict {
    let mut made = 0;
    let makers = [Maker::Structured, Maker::Mutated, Maker::Noise];
    for room in 0..=12 {
        for _ in 0..20_000 {
            let image = match rng.below(10) {
                0 => images::damaged(rng),
                _ => images::good(rng),
            };
            let (frame, _) = Stream::new(rng.pick(&makers)).next(rng);
            made += fly(sides, &image, vec![(frame, room)])?.0;
        }
    }
    Ok(made)
}

/// Every serial against lasts around the wrap and the halfway point, of both
/// origins and all kinds that carry one.
pub fn serials(sides: &[Calls; 2], rng: &mut Rng) -> Verdict {
    let mut made = 0;
    let lasts = [0, 1, 2, 32_766, 32_767, 32_768, 32_769, 65_534, 65_535];
    for last in lasts.into_iter().chain([rng.word(), rng.word()]) {
        for (kind, origin) in [
            (table::ORDER, FROM_GROUND),
            (table::ORDER, FROM_PAYLOAD),
            (table::THRESHOLDS, FROM_GROUND),
            (table::TIMED, FROM_GROUND),
            (table::TIMED, FROM_PAYLOAD),
            (table::GREETING, FROM_GROUND),
        ] {
            let mut state = images::state(rng);
            state.last = Last {
                ground: last,
                payload: last,
            };
            let start = image::save(&state);
            for serial in 0..=u16::MAX {
                let [high, low] = serial.to_be_bytes();
                let mut frame = vec![kind, origin, high, low];
                match kind {
                    table::ORDER => frame.extend([table::PAYLOAD, rng.byte() & 1]),
                    table::TIMED => frame.extend([table::PAYLOAD, 0, rng.byte() | 1]),
                    table::GREETING => frame.extend(messages::body(&messages::good(rng))),
                    _ => frame.extend([0x1C, 0xE8, 0x1B, 0x58]),
                }
                made += fly(sides, &start, vec![(frame, ROOM)])?.0;
            }
        }
    }
    Ok(made)
}
