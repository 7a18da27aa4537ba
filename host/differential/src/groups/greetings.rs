//! Greetings: their fields about every limit, every byte in every place, messages that
//! are kept, sent and used up, and the extended beacon's text.

use super::{asked, call, fly, Verdict, MODES, ROOM};
use crate::compare::hex;
use crate::images;
use crate::messages::{self, Fault};
use crate::rng::Rng;
use crate::sending;
use crate::shrink::Shot;
use crate::sides::Calls;
use model::message::{self, Message};
use model::state::{Mode, COMPLETE_TICKS};
use model::table::{FROM_GROUND, FROM_PAYLOAD, GREETING, TICK};
use model::{image, State};

fn greeting(origin: u8, serial: u16, message: &Message) -> Shot {
    let [high, low] = serial.to_be_bytes();
    let head = [GREETING, origin, high, low];
    ([&head[..], &messages::body(message)].concat(), ROOM)
}

/// Lengths about the shortest and the longest.
const LENGTHS: [usize; 5] = [0, 1, 2, message::BYTES - 1, message::BYTES];

/// Repeats about the fewest and the most.
const REPEATS: [u8; 4] = [0, 1, 2, u8::MAX];

/// Messages within their limits and with each fault that they can have, repeats,
/// origins and distances of the serial about their limits, each with each, in every
/// mode.
pub fn greetings(sides: &[Calls; 2], rng: &mut Rng) -> Verdict {
    let mut made = 0;
    for mode in MODES.repeat(8) {
        let state = images::state_in(rng, mode);
        for length in LENGTHS {
            let faults = messages::faults(length).into_iter().map(Some);
            for fault in faults.chain([None]) {
                for repeats in REPEATS {
                    let good = messages::of_length(rng, repeats, length);
                    let sent = fault.map_or(good, |fault| messages::with(rng, good, fault));
                    made += send(sides, &state, &sent)?;
                }
            }
        }
    }
    Ok(made)
}

/// Sends a message from every origin, with every sort of serial.
fn send(sides: &[Calls; 2], state: &State, sent: &Message) -> Verdict {
    let mut made = 0;
    for origin in [0, FROM_GROUND, FROM_PAYLOAD, 3] {
        for distance in [0, 1, 32_767, 32_768, 65_535] {
            let serial = state.last.of(origin).wrapping_add(distance);
            let shot = greeting(origin, serial, sent);
            made += fly(sides, &image::save(state), vec![shot])?.0;
        }
    }
    Ok(made)
}

/// Every byte in every place of the sixteen, of messages of every length, from the
/// ground and from the payload, with repeats and without; and every space next to
/// another.
pub fn greeting_bytes(sides: &[Calls; 2], rng: &mut Rng) -> Verdict {
    let mut made = 0;
    let mut both = |rng: &mut Rng, sent: Message| -> Result<(), String> {
        let state = images::state(rng);
        for origin in [FROM_GROUND, FROM_PAYLOAD] {
            for repeats in [0, rng.byte() | 1] {
                let serial = state.last.of(origin).wrapping_add(1);
                let shot = greeting(origin, serial, &Message { repeats, ..sent });
                made += fly(sides, &image::save(&state), vec![shot])?.0;
            }
        }
        Ok(())
    };
    for length in 0..=message::BYTES {
        for place in 0..message::BYTES {
            let good = messages::of_length(rng, 0, length);
            for byte in 0..=u8::MAX {
                let mut sent = good;
                sent.bytes[place] = byte;
                both(rng, sent)?;
            }
        }
        for place in 0..length {
            let good = messages::of_length(rng, 0, length);
            let doubled = messages::with(rng, good, Fault::Space(place));
            both(rng, doubled)?;
        }
        for said in 0..=u8::MAX {
            let mut sent = messages::of_length(rng, 0, length);
            sent.length = said;
            both(rng, sent)?;
        }
    }
    Ok(made)
}

/// Messages of every length in the state, with every byte in every place: a tick that
/// makes a beacon due in SAFE, and the extended text.
pub fn kept_messages(sides: &[Calls; 2], rng: &mut Rng) -> Verdict {
    let mut made = 0;
    let mut look = |rng: &mut Rng, kept: Message| -> Result<(), String> {
        let mut state = images::state(rng);
        if !state.mode.deploying() {
            state.beacon = COMPLETE_TICKS - 1;
        }
        let mut bytes = image::save(&state);
        images::set_message(&mut bytes, &kept);
        let (steps, after) = fly(sides, &bytes, vec![(vec![TICK, 0], ROOM)])?;
        call(sides, |calls| calls.beacon_extended, &after, 40)?;
        made += steps + 1;
        Ok(())
    };
    for length in 0..=message::BYTES {
        for place in 0..message::BYTES {
            let repeats = rng.pick(&REPEATS);
            let good = messages::of_length(rng, repeats, length);
            for byte in 0..=u8::MAX {
                let mut kept = good;
                kept.bytes[place] = byte;
                look(rng, kept)?;
            }
        }
        for value in 0..=u8::MAX {
            let good = messages::of_length(rng, value, length);
            look(rng, good)?;
            look(
                rng,
                Message {
                    length: value,
                    ..good
                },
            )?;
        }
    }
    Ok(made)
}

/// Flights with a message that has few repeats, about the ticks in which a beacon
/// falls due; greetings, orders and crossings come between. The texts after each.
pub fn messages_run_out(sides: &[Calls; 2], rng: &mut Rng) -> Verdict {
    let mut made = 0;
    while made < 1_200_000 {
        let (start, shots) = sending::flight(rng);
        let (steps, end) = fly(sides, &image::save(&start), shots)?;
        made += steps + asked(sides, rng, &end)?;
    }
    Ok(made)
}

/// A greeting with 255 repeats, beacon by beacon until they are used up, and two more:
/// the message stays, and so does its text.
pub fn most_repeats(sides: &[Calls; 2], rng: &mut Rng) -> Verdict {
    let mut state = State::fresh();
    (state.mode, state.tension) = (Mode::Safe, 8_000);
    let sent = messages::of_length(rng, u8::MAX, message::BYTES);
    let shot = greeting(FROM_GROUND, 1, &sent);
    let (mut made, mut image) = fly(sides, &image::save(&state), vec![shot])?;
    for beacon in 1..=257 {
        let ticks = (0..COMPLETE_TICKS).map(|_| (vec![TICK, rng.byte()], ROOM));
        let (steps, after) = fly(sides, &image, ticks.collect())?;
        let left = u8::MAX.saturating_sub(beacon.min(255) as u8);
        let wanted = Message {
            repeats: left,
            ..sent
        };
        if image::load(&after).map(|state| state.message) != Some(wanted) {
            return Err(format!("after beacon {beacon}: {}", hex(&after)));
        }
        let text = call(sides, |calls| calls.beacon_extended, &after, 33)?;
        if (text.answer, text.count) != (0, 33) {
            return Err(format!("no text after beacon {beacon}: {}", hex(&after)));
        }
        image = after;
        made += steps + 1;
    }
    Ok(made)
}

/// The extended text in every room up to more than it needs: of messages of every
/// length, in every mode, with repeats and without; and where the image is none.
pub fn extended_beacons(sides: &[Calls; 2], rng: &mut Rng) -> Verdict {
    let mut made = 0;
    for _ in 0..25 {
        for mode in MODES {
            for length in 0..=message::BYTES {
                for repeats in REPEATS {
                    let mut state = images::state_in(rng, mode);
                    state.message = messages::of_length(rng, repeats, length);
                    let good = image::save(&state);
                    let mut bad = good;
                    images::set_message(&mut bad, &messages::bad(rng));
                    for room in 0..=34 {
                        call(sides, |calls| calls.beacon_extended, &good, room)?;
                        made += 1;
                    }
                    for room in [0, 16, 17, 33] {
                        call(sides, |calls| calls.beacon_extended, &bad, room)?;
                        made += 1;
                    }
                }
            }
        }
    }
    Ok(made)
}
