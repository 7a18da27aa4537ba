//! Counts of something else than the modules that are on.

use differential::masks::masks_of;
use differential::sides::Counted;
use model::image::{self, at};
use model::state::Mode;
use model::{calls, State};

/// What each counts in a state in range, and the call.
pub const COUNTED: [(&str, Counted); 12] = [
    ("counts the requested", |image, _| {
        counted(image, |state| ones(state.masks.requested))
    }),
    ("counts the failed", |image, _| {
        counted(image, |state| ones(state.masks.failed))
    }),
    ("counts those that are not on", |image, _| {
        counted(image, |state| ones(!state.masks.on))
    }),
    ("counts the on and the failed", |image, _| {
        counted(image, |state| ones(state.masks.on | state.masks.failed))
    }),
    ("counts those requested and on", |image, _| {
        counted(image, |state| ones(state.masks.requested & state.masks.on))
    }),
    ("counts up to the highest", |image, _| {
        counted(image, |state| 8 - state.masks.on.leading_zeros() as usize)
    }),
    ("gives the on mask", |image, _| {
        counted(image, |state| state.masks.on.into())
    }),
    ("leaves module 0 out", |image, _| {
        counted(image, |state| ones(state.masks.on & 0xFE))
    }),
    ("leaves module 7 out", |image, _| {
        counted(image, |state| ones(state.masks.on & 0x7F))
    }),
    ("counts to 7", |image, _| {
        counted(image, |state| ones(state.masks.on).min(7))
    }),
    ("leaves the mission four out in RECOVERY", |image, _| {
        counted(image, |state| match state.mode {
            Mode::Recovery => ones(state.masks.on & 0x27),
            _ => ones(state.masks.on),
        })
    }),
    ("counts none in DEPLOY_WAIT", |image, _| {
        counted(image, |state| match state.mode.deploying() {
            true => 0,
            false => ones(state.masks.on),
        })
    }),
];

/// What each does where masks and modules disagree, and the call.
pub const REFUSED: [(&str, Counted); 4] = [
    ("counts the mask at a refusal", |image, _| {
        refused(image, |image| (1, ones(image[at::ON])))
    }),
    ("counts the modules at a refusal", |image, _| {
        refused(image, |image| (1, ones(masks_of(image)[1])))
    }),
    ("writes no count at a refusal", |image, _| {
        refused(image, |_| (1, usize::MAX))
    }),
    ("takes any image that is long enough", |image, _| {
        refused(image, |image| (0, ones(image[at::ON])))
    }),
];

fn ones(mask: u8) -> usize {
    mask.count_ones() as usize
}

/// The count of a state in range by a rule.
fn counted(image: &[u8], rule: fn(&State) -> usize) -> (u8, usize) {
    match image::load(image) {
        Some(state) => (0, rule(&state)),
        None => (1, 0),
    }
}

/// The right count of a state in range; of other bytes that are as long as an image
/// answer and count by a rule.
fn refused(image: &[u8], rule: fn(&[u8]) -> (u8, usize)) -> (u8, usize) {
    match calls::modules_on(image) {
        (1, _) if image.len() == image::BYTES => rule(image),
        given => given,
    }
}
