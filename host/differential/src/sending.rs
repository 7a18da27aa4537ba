//! Flights from a seed with a message that has few repeats, about the ticks in which a
//! beacon falls due.

use crate::frames::{Maker, Stream};
use crate::images;
use crate::rng::Rng;
use crate::shrink::Shot;
use model::state::{Mode, BASIC_TICKS, COMPLETE_TICKS};
use model::State;

/// A state in RECOVERY or SAFE, and frames for it: a few, or so many that several
/// beacons fall due.
pub fn flight(rng: &mut Rng) -> (State, Vec<Shot>) {
    let mode = rng.pick(&[Mode::Recovery, Mode::Safe, Mode::Safe]);
    let mut state = images::state_in(rng, mode);
    state.message.repeats = rng.below(4) as u8;
    state.beacon = rng.pick(&[COMPLETE_TICKS, BASIC_TICKS]) - rng.between(1, 4);
    let mut stream = Stream::new(Maker::Structured).after(state.last);
    let frames = rng.pick(&[5, 5, 5, 5, 400]);
    let shots = (0..frames).map(|_| stream.next(rng)).collect();
    (state, shots)
}
