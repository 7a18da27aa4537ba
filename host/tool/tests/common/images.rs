//! Images that are made byte by byte, and what `ems image` shows of them.

use super::{fed, Ran};
use ::ems::Module;

pub type Image = [u8; 71];

/// The fresh start: version 6, waiting for no second, thresholds of 7,400 and
/// 7,000 mV, no greeting, no end, the masks, every module off with 5 tries; the core
/// four are requested.
pub const FRESH: Image = [
    6, 0, 0, 0, 0, 0, 0, 0, 0, 0, 0xE8, 0x1C, 0x58, 0x1B, 0, 0, 0, 0, //
    0, 0, 0, 0, 0, 0, 0, 0, 0, 0, 0, 0, 0, 0, 0, 0, 0, 0, //
    0, 0, 0, 0, 0, 0, 0, 0, 0, 0, 0, 0, 0, 0, 0, 0, //
    0x27, 0, 0, //
    0xF5, 0x80, 0xF5, 0x80, 0xF5, 0x80, 0xF5, 0, 0xF5, 0, 0xF5, 0x80, 0xF5, 0, 0xF5, 0,
];

/// Where the masks are, and what they are called.
pub const MASKS: [(usize, &str); 3] = [
    (REQUESTED, "requested mask"),
    (ON, "on mask"),
    (FAILED, "failed mask"),
];
pub const REQUESTED: usize = 52;
pub const ON: usize = 53;
pub const FAILED: usize = 54;

/// Where the modules begin.
pub const MODULES: usize = 55;

/// What is said first of bytes that are no state's image.
pub const NO_STATE: &str = "ems: standard input: no state has this image:";

/// The fresh start with other bytes from a place on.
pub fn with(at: usize, bytes: &[u8]) -> Image {
    let mut image = FRESH;
    image[at..at + bytes.len()].copy_from_slice(bytes);
    image
}

/// In SAFE, with other bytes from a place on.
pub fn safe_with(at: usize, bytes: &[u8]) -> Image {
    let mut image = with(1, &[0x05, 0x55, 0x01]);
    image[at..at + bytes.len()].copy_from_slice(bytes);
    image
}

/// An image with another number for a module; the masks stay.
pub fn with_module(mut image: Image, module: Module, number: u16) -> Image {
    let at = MODULES + 2 * usize::from(module.number());
    image[at..at + 2].copy_from_slice(&number.to_le_bytes());
    image
}

/// The same, and the masks say so of the module too.
pub fn with_module_and_masks(image: Image, module: Module, number: u16) -> Image {
    let mut image = with_module(image, module, number);
    let power = number % 32_768;
    for (at, has) in [
        (REQUESTED, number >= 32_768),
        (ON, power <= 240),
        (FAILED, power >= 246),
    ] {
        image[at] = (image[at] & !module.bit()) | if has { module.bit() } else { 0 };
    }
    image
}

/// What is shown of bytes that may be an image.
pub fn shown(image: &[u8]) -> Ran {
    fed(&["image", "-"], image)
}
