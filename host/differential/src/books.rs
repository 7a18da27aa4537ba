//! Books from a seed: numbers in range, about their limit and past it; threes of them
//! whose share is about to be one thousandth more; and flights to be written into them.

use crate::frames::{Maker, Stream};
use crate::images;
use crate::rng::Rng;
use crate::shrink::Shot;
use model::books::{MOST_SECONDS, NUMBERS};
use model::state::Mode;
use model::table::ANTENNAS;
use model::{image, report, State};

/// Numbers about both limits, about that of 32 bits, and far past them.
pub const ABOUT: [u64; 10] = [
    0,
    1,
    u32::MAX as u64,
    MOST_SECONDS - 1,
    MOST_SECONDS,
    MOST_SECONDS + 1,
    MOST_SECONDS + (1 << 32),
    i64::MAX as u64,
    1 << 63,
    u64::MAX,
];

/// A number below the limit: any, few enough to be counted, or about a limit of bits.
pub fn number(rng: &mut Rng) -> u64 {
    let any = rng.below(MOST_SECONDS as usize) as u64;
    let few = rng.below(1_000) as u64;
    let bits = (1 << rng.below(50)) - 1;
    rng.pick(&[0, few, few, any, bits])
}

/// So many numbers below the limit.
pub fn of_length(rng: &mut Rng, length: usize) -> Vec<u64> {
    (0..length).map(|_| number(rng)).collect()
}

/// Books with room for a second in each number.
pub fn good(rng: &mut Rng) -> Vec<u64> {
    of_length(rng, NUMBERS)
}

/// Books with room for few seconds in some numbers, and for one or none in others.
pub fn nearly_full(rng: &mut Rng) -> Vec<u64> {
    let left = rng.pick(&[2, 40, 400]);
    let mut number = || MOST_SECONDS - rng.below(left) as u64;
    (0..NUMBERS).map(|_| number()).collect()
}

/// Seconds on, off and failed, of which so many thousandths are on: just so many, or all
/// but a second of the next.
pub fn three(rng: &mut Rng, share: u64) -> [u64; 3] {
    let most = rng.pick(&[1_000, 100_000, MOST_SECONDS]);
    let total = 1 + rng.below(most as usize) as u64;
    let least = |share: u64| (share * total).div_ceil(1_000);
    let on = match rng.once_in(2) {
        true => least(share),
        false => least(share + 1).saturating_sub(1),
    };
    let on = on.min(total);
    let off = rng.below((total - on) as usize + 1) as u64;
    let others = [off, total - on - off];
    let [off, failed] = rng.pick(&[others, [total - on, 0], [0, total - on]]);
    [on, off, failed]
}

/// Frames for a flight, and the image that it starts from: the fresh one, deployed, or
/// that of any state in range; by the table mostly.
pub fn flight(rng: &mut Rng) -> (Vec<u8>, Vec<Shot>) {
    let frames = rng.pick(&[10, 100, 1_000]);
    let maker = rng.pick(&[Maker::Structured, Maker::Structured, Maker::Mutated]);
    let mut state = images::state(rng);
    let mut stream = Stream::new(maker);
    let mut shots = Vec::new();
    match rng.below(4) {
        0 => {
            state = State::fresh();
            // Antennas out, so that a long flight gets beyond the waiting.
            shots.push((vec![ANTENNAS, 1], report::BYTES as u8));
        }
        1 => {
            // The last seconds of DEPLOY_WAIT.
            state = images::state_in(rng, Mode::Settling(3));
            stream = stream.after(state.last);
        }
        _ => stream = stream.after(state.last),
    }
    shots.extend((0..frames).map(|_| stream.next(rng)));
    (image::save(&state).to_vec(), shots)
}
