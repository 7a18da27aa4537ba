//! What an image in range says, read off its bytes: the model has no part in it.

use crate::masks::masks_of;
use model::image::{at, code};

/// The mask of the core four: modules 0, 1, 2 and 5.
pub const CORE: u8 = 0x27;

/// The number of RECOVERY, as reports have it.
pub const RECOVERY: u8 = 1;
/// The number of SAFE.
pub const SAFE: u8 = 2;

/// The mode's number, 0 in DEPLOY_WAIT.
pub fn mode(image: &[u8]) -> u8 {
    let number = [image[at::MODE], image[at::MODE + 1], image[at::MODE + 2], 0];
    match u32::from_le_bytes(number) {
        code::SAFE => SAFE,
        code::RECOVERY => RECOVERY,
        _ => 0,
    }
}

/// The seconds to an end, by its place among those of the mission four.
pub fn end(image: &[u8], place: usize) -> u32 {
    let begin = at::ENDS + 4 * place;
    let seconds = &image[begin..begin + 4];
    seconds
        .iter()
        .rfold(0, |n, &byte| 256 * n + u32::from(byte))
}

/// The mask of the modules that are requested.
pub fn requested(image: &[u8]) -> u8 {
    let [requested, _, _] = masks_of(image);
    requested
}

/// The mask of the modules that are on.
pub fn on(image: &[u8]) -> u8 {
    let [_, on, _] = masks_of(image);
    on
}

/// A module's two bytes: its request, its power, its tries and its seconds.
pub fn module(image: &[u8], number: usize) -> &[u8] {
    let begin = at::MODULES + 2 * number;
    &image[begin..begin + 2]
}
