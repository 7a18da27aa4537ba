//! What an image's masks tell of its modules: where they stand, what the modules make of
//! them, and bits of them turned.

use crate::images::number;
use crate::rng::Rng;
use model::image::{at, code};
use model::state::{FAILED_SECONDS, TRIES};

/// Where an image has the requested, on and failed masks.
pub const MASKS: [usize; 3] = [at::REQUESTED, at::ON, at::FAILED];

/// What a module can be.
#[derive(Clone, Copy, Debug, PartialEq, Eq, PartialOrd, Ord)]
pub enum Sort {
    /// On.
    On,
    /// Off.
    Off,
    /// Failed.
    Failed,
}

/// All that a module can be.
pub const SORTS: [Sort; 3] = [Sort::On, Sort::Off, Sort::Failed];

/// A number of a module of a sort, requested or not.
pub fn number_of(rng: &mut Rng, sort: Sort, requested: bool) -> u16 {
    let power = match sort {
        Sort::On => number(rng, 0, code::OFF),
        Sort::Off => number(rng, code::OFF + 1, code::OFF + TRIES),
        Sort::Failed => number(rng, code::FAILED, code::FAILED + FAILED_SECONDS),
    };
    power + u16::from(requested) * code::REQUESTED
}

/// Whether a module with this number is requested, on and failed. One beyond the last
/// number counts as failed.
pub fn told(number: u16) -> [bool; 3] {
    let power = number % code::REQUESTED;
    let requested = number >= code::REQUESTED;
    [requested, power <= code::OFF, power >= code::FAILED]
}

/// The masks that the modules of an image have.
pub fn masks_of(bytes: &[u8]) -> [u8; 3] {
    let mut masks = [0; 3];
    for (place, number) in bytes[at::MODULES..].chunks(2).enumerate() {
        let told = told(u16::from_le_bytes([number[0], number[1]]));
        for (mask, holds) in masks.iter_mut().zip(told) {
            *mask |= u8::from(holds) << place;
        }
    }
    masks
}

/// Turns bits of the masks of an image: in each those of one byte.
pub fn turn(bytes: &mut [u8], bits: [u8; 3]) {
    for (mask, bits) in MASKS.into_iter().zip(bits) {
        bytes[mask] ^= bits;
    }
}

/// Bits of the masks, one at least: any, those of one mask, those of one module, or one;
/// and often another.
pub fn some_bits(rng: &mut Rng) -> [u8; 3] {
    let mut bits = [0; 3];
    match rng.below(4) {
        0 => bits = std::array::from_fn(|_| rng.byte()),
        1 => bits[rng.below(3)] = rng.byte(),
        2 => bits = [1 << rng.below(8); 3],
        _ => bits[rng.below(3)] = 1 << rng.below(8),
    }
    bits[rng.below(3)] |= 1 << rng.below(8);
    bits
}
