//! Images from a seed: of states in range, at the ranges' ends, and outside.

use crate::compare::LONGEST;
use crate::masks::{some_bits, told, turn, MASKS};
use crate::messages;
use crate::rng::Rng;
use model::image::{self, at, code};
use model::masks::Masks;
use model::message::Message;
use model::state::{
    Last, Mode, Module, Power, CLEAN_SECONDS, CONTROL_TICKS, END_SECONDS, FAILED_SECONDS,
    SETTLE_SECONDS, TRIES, WAIT_SECONDS,
};
use model::table::{HIGHEST, LOWEST};
use model::State;

/// A state in range; the ends of a range are as likely as all between.
pub fn state(rng: &mut Rng) -> State {
    let mode = mode(rng);
    state_in(rng, mode)
}

fn mode(rng: &mut Rng) -> Mode {
    match rng.below(6) {
        0 => Mode::Waiting(rng.pick(&[0, 1, WAIT_SECONDS - 2, WAIT_SECONDS - 1])),
        1 => Mode::Settling(u32::from(number(rng, 1, SETTLE_SECONDS as u16))),
        2 | 3 => Mode::Recovery,
        _ => Mode::Safe,
    }
}

/// A state in range, in this mode.
pub fn state_in(rng: &mut Rng, mode: Mode) -> State {
    let moving = u16::from(!mode.deploying());
    let descend = number(rng, LOWEST, HIGHEST);
    let ascend = number(rng, descend, HIGHEST);
    let tension = match rng.below(8) {
        0 => 0,
        1 => ascend,
        2 => descend,
        3 => (ascend + 1).min(HIGHEST),
        4 => (descend - 1).max(LOWEST),
        _ => number(rng, LOWEST, HIGHEST),
    };
    let modules = std::array::from_fn(|_| module(rng));
    State {
        mode,
        control: (moving * number(rng, 0, u16::from(CONTROL_TICKS) - 1)) as u8,
        beacon: moving * rng.pick(&[0, 58, 59, 60, 119, 239, 298, 299]),
        antennas: rng.once_in(2),
        tension,
        ascend,
        descend,
        last: Last {
            ground: rng.word(),
            payload: rng.word(),
        },
        message: messages::good(rng),
        ends: std::array::from_fn(|_| end(rng)),
        masks: Masks::of(&modules),
        modules,
    }
}

/// Seconds to an end: about to run out, at the range's end, or any.
fn end(rng: &mut Rng) -> u32 {
    let any = rng.below(END_SECONDS as usize + 1) as u32;
    rng.pick(&[0, 0, 1, 2, 3, 60, END_SECONDS - 1, END_SECONDS, any])
}

fn module(rng: &mut Rng) -> Module {
    let power = match rng.below(3) {
        0 => on(rng),
        1 => Power::Off(number(rng, 1, TRIES)),
        _ => Power::Failed(number(rng, 0, FAILED_SECONDS)),
    };
    let requested = rng.once_in(2);
    Module { power, requested }
}

/// On, with any tries; at its first second, about to have all of them, or between.
fn on(rng: &mut Rng) -> Power {
    let tries = rng.between(1, TRIES);
    let seconds = match tries {
        TRIES => 0,
        _ => number(rng, 0, CLEAN_SECONDS - 1),
    };
    Power::On { tries, seconds }
}

/// A number in a range, with its ends favoured.
pub fn number(rng: &mut Rng, low: u16, high: u16) -> u16 {
    match rng.below(4) {
        0 => low,
        1 => high,
        _ => rng.between(low, high),
    }
}

/// An image in range.
pub fn good(rng: &mut Rng) -> Vec<u8> {
    image::save(&state(rng)).to_vec()
}

/// Numbers of modes around the ends of what each says, and beyond the last.
const MODES: [u32; 13] = [
    0,
    1,
    code::SETTLING - 1,
    code::SETTLING,
    code::SETTLING + 1,
    code::SETTLING + 2,
    code::RECOVERY - 2,
    code::RECOVERY - 1,
    code::RECOVERY,
    code::SAFE,
    code::SAFE + 1,
    code::SAFE + 2,
    0xFF_FFFF,
];

/// Numbers of powers around the ends of what each says, and beyond the last.
const POWERS: [u16; 19] = [
    0,
    1,
    CLEAN_SECONDS - 1,
    CLEAN_SECONDS,
    CLEAN_SECONDS + 1,
    code::OFF - CLEAN_SECONDS,
    code::OFF - 1,
    code::OFF,
    code::OFF + 1,
    code::OFF + TRIES - 1,
    code::OFF + TRIES,
    code::FAILED,
    code::FAILED + 1,
    code::FAILED + FAILED_SECONDS - 1,
    code::FAILED + FAILED_SECONDS,
    code::FAILED + FAILED_SECONDS + 1,
    code::FAILED + FAILED_SECONDS + 2,
    code::REQUESTED - 2,
    code::REQUESTED - 1,
];

/// Seconds to an end around the last in range, and where another byte begins.
const ENDS: [u32; 12] = [
    0,
    1,
    0xFF,
    0x100,
    0xFFFF,
    0x1_0000,
    END_SECONDS,
    END_SECONDS + 1,
    END_SECONDS + 2,
    0xFF_FFFF,
    0x100_0000,
    u32::MAX,
];

/// Sets an image's mode by its number.
pub fn set_mode(bytes: &mut [u8], number: u32) {
    bytes[at::MODE..at::CONTROL].copy_from_slice(&number.to_le_bytes()[..3]);
}

/// Sets an end of an image.
pub fn set_end(bytes: &mut [u8], place: usize, seconds: u32) {
    let begin = at::ENDS + 4 * place;
    bytes[begin..begin + 4].copy_from_slice(&seconds.to_le_bytes());
}

/// Sets the message of an image.
pub fn set_message(bytes: &mut [u8], message: &Message) {
    bytes[at::REPEATS] = message.repeats;
    bytes[at::LENGTH] = message.length;
    bytes[at::TEXT..at::ENDS].copy_from_slice(&message.bytes);
}

/// Sets a module of an image by its number, and its bits of the masks with it.
pub fn set_module(bytes: &mut [u8], place: usize, number: u16) {
    set_module_alone(bytes, place, number);
    let bit = 1 << place;
    for (mask, holds) in MASKS.into_iter().zip(told(number)) {
        bytes[mask] = bytes[mask] & !bit | if holds { bit } else { 0 };
    }
}

/// Sets a module of an image by its number; the masks stay.
pub fn set_module_alone(bytes: &mut [u8], place: usize, number: u16) {
    let begin = at::MODULES + 2 * place;
    bytes[begin..begin + 2].copy_from_slice(&number.to_le_bytes());
}

/// Sets both counts of an image to 0, which is in range in every mode.
pub fn clear_counts(bytes: &mut [u8]) {
    bytes[at::CONTROL..at::ANTENNAS].fill(0);
}

/// Bytes that often are no image: a number of a mode, of ends or of modules at an
/// edge, masks and modules that disagree, a message with one thing wrong, a tag beside
/// the right ones, a byte or two changed, another length, noise.
pub fn damaged(rng: &mut Rng) -> Vec<u8> {
    let mut bytes = good(rng);
    match rng.below(13) {
        0 => {
            let length = rng.below(LONGEST + 1);
            bytes.resize(length, 0);
        }
        1 => {
            bytes = rng.bytes(image::BYTES);
            bytes[at::VERSION] = image::VERSION;
        }
        2 => {
            // Small numbers everywhere.
            bytes = (0..image::BYTES).map(|_| rng.below(3) as u8).collect();
        }
        3 => {
            set_mode(&mut bytes, rng.pick(&MODES));
            if rng.once_in(2) {
                clear_counts(&mut bytes);
            }
        }
        4 => {
            for _ in 0..=rng.below(3) {
                let requested = rng.pick(&[0, code::REQUESTED]);
                let number = requested + rng.pick(&POWERS);
                let set = rng.pick(&[set_module, set_module_alone]);
                set(&mut bytes, rng.below(8), number);
            }
        }
        5 => match rng.below(2) {
            0 => bytes[at::VERSION] = rng.pick(&[0, 1, 2, 3, 4, 5, 7]),
            _ => bytes[at::ANTENNAS] = rng.pick(&[2, 3, 128, 255]),
        },
        6 => {
            for _ in 0..=rng.below(2) {
                set_end(&mut bytes, rng.below(4), rng.pick(&ENDS));
            }
        }
        7 => set_message(&mut bytes, &messages::bad(rng)),
        8 => turn(&mut bytes, some_bits(rng)),
        _ => {
            for _ in 0..=rng.below(2) {
                let place = rng.below(bytes.len());
                bytes[place] = match rng.below(3) {
                    0 => rng.below(4) as u8,
                    1 => bytes[place] ^ 1 << rng.below(8),
                    _ => rng.byte(),
                };
            }
        }
    }
    bytes
}
