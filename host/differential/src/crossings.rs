//! Boards about a judgement of the mode, from a seed; and what a frame may do to the
//! requests.

use crate::images;
use crate::in_image::{self, CORE, RECOVERY, SAFE};
use crate::rng::Rng;
use crate::shrink::Shot;
use model::report;
use model::state::{Mode, END_SECONDS};
use model::table::{BATTERY, FROM_GROUND, HIGHEST, LOWEST, MISSION, MODULES, ORDER, TICK, TIMED};
use model::State;

/// A board with this control count and these modules requested, in powers of all sorts;
/// with ends that run, some of them for their last second, or with none.
pub fn board(rng: &mut Rng, mode: Mode, control: u8, requested: u8, ends: bool) -> State {
    let mut state = images::state_in(rng, mode);
    state.control = control;
    for (module, row) in state.modules.iter_mut().zip(&MODULES) {
        module.requested = requested & row.bit() != 0;
    }
    state.gather_masks();
    let seconds = [0, 1, 1, 2, 60, END_SECONDS];
    state.ends = match ends {
        true => std::array::from_fn(|_| rng.pick(&seconds)),
        false => [0; 4],
    };
    state
}

/// Tensions below, at and above each threshold, as far as they are in range.
pub fn tensions(state: &State) -> [u16; 6] {
    let (ascend, descend) = (state.ascend, state.descend);
    let about = [
        descend - 1,
        descend,
        descend + 1,
        ascend - 1,
        ascend,
        ascend + 1,
    ];
    about.map(|tension| tension.clamp(LOWEST, HIGHEST))
}

/// Frames of a flight: seven judgements or so.
const FRAMES: usize = 250;

/// A board in RECOVERY or SAFE, and frames for it: ticks, readings about the thresholds,
/// and orders for the core four mostly, a few from one judgement to the next.
pub fn flight(rng: &mut Rng) -> (State, Vec<Shot>) {
    let mode = rng.pick(&[Mode::Recovery, Mode::Safe]);
    let state = images::state_in(rng, mode);
    let mut serial = state.last.ground;
    let mut next = || match rng.below(24) {
        0 => {
            let [high, low] = rng.pick(&tensions(&state)).to_be_bytes();
            vec![BATTERY, high, low]
        }
        1 | 2 => {
            serial = serial.wrapping_add(1);
            order(rng, serial)
        }
        3 => vec![TICK, rng.byte()],
        _ => vec![TICK, 0],
    };
    let shots = (0..FRAMES).map(|_| (next(), report::BYTES as u8)).collect();
    (state, shots)
}

/// An order of the ground, on or off, for one of the core four mostly.
fn order(rng: &mut Rng, serial: u16) -> Vec<u8> {
    let [high, low] = serial.to_be_bytes();
    let any = rng.below(8) as u8;
    let module = rng.pick(&[0, 1, 2, 5, any]);
    vec![ORDER, FROM_GROUND, high, low, module, rng.byte() & 1]
}

/// The requests that a frame leaves, by the image before it, its answer, and the image
/// after it. An order that is done moves its module's. Outside DEPLOY_WAIT a tick drops
/// those whose end runs out and, as the mode falls to RECOVERY, those of the mission
/// four. Nothing else moves any, a crossing upward neither.
pub fn requests_left(before: &[u8], frame: &[u8], answer: u8, after: &[u8]) -> u8 {
    let requested = in_image::requested(before);
    match (answer, frame) {
        (0, &[ORDER, _, _, _, module, 0]) => requested & !(1 << module),
        (0, &[ORDER, _, _, _, module, _] | &[TIMED, _, _, _, module, _, _]) => {
            requested | 1 << module
        }
        (0, &[TICK, _]) if in_image::mode(before) >= RECOVERY => {
            let last = |&(place, _): &(usize, u8)| in_image::end(before, place) == 1;
            let ended = MISSION.into_iter().enumerate().filter(last);
            let ended: u8 = ended.map(|(_, module)| 1 << module).sum();
            let fell = (in_image::mode(before), in_image::mode(after)) == (SAFE, RECOVERY);
            requested & !ended & if fell { CORE } else { u8::MAX }
        }
        _ => requested,
    }
}
