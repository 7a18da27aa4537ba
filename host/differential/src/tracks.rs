//! Readings of a panel from a seed, numbers of the tracker about their limits and past
//! them, and panels to climb on.

use crate::rng::Rng;
use model::track::{LONGEST_STEP, MOST_MILLIAMPERES, MOST_MILLIVOLTS};
use std::cmp::Ordering;

/// A panel's volts and amps, in millivolts and milliamperes.
pub type Pair = (u32, u32);

/// Numbers far past any limit, among them those that are small in 16 bits, or below 0
/// with a sign.
pub const FAR: [u32; 6] = [
    1 << 16,
    (1 << 16) + 1,
    1 << 31,
    (1 << 31) + 1,
    u32::MAX - 1,
    u32::MAX,
];

/// Steps as far past their limits.
pub const FAR_STEPS: [i32; 6] = [
    (1 << 16) + 1,
    1 - (1 << 16),
    i32::MIN,
    i32::MIN + 1,
    i32::MAX - 1,
    i32::MAX,
];

/// A number from 0 to this one.
pub fn up_to(rng: &mut Rng, most: u32) -> u32 {
    rng.below(most as usize + 1) as u32
}

/// The length of a step that is taken.
pub fn length(rng: &mut Rng) -> u32 {
    1 + up_to(rng, LONGEST_STEP as u32 - 1)
}

/// Numbers about both limits of those from 0 to this one, with one between, and one far
/// past them.
pub fn about(rng: &mut Rng, most: u32, far: u32) -> [u32; 7] {
    [0, 1, up_to(rng, most), most - 1, most, most + 1, far]
}

/// Steps about all limits, with one between of either sign, and one far past them.
pub fn steps_about(rng: &mut Rng, far: i32) -> [i32; 10] {
    let (up, down) = (length(rng) as i32, -(length(rng) as i32));
    let most = LONGEST_STEP;
    [-most - 1, -most, down, -1, 0, 1, up, most, most + 1, far]
}

/// Readings before and after a move over which the power goes so: `Less` is a fall.
pub fn readings(rng: &mut Rng, power: Ordering) -> (Pair, Pair) {
    let (less, more) = match power {
        Ordering::Equal => return alike(rng),
        _ if rng.once_in(2) => one_apart(rng),
        _ => apart(rng),
    };
    match power {
        Ordering::Less => (more, less),
        _ => (less, more),
    }
}

/// Two readings of the same power: of other factors mostly.
fn alike(rng: &mut Rng) -> (Pair, Pair) {
    // A product of two of these is within the limit of volts, one with the last of them
    // within that of amps.
    let [first, second, third] = [(); 3].map(|_| up_to(rng, 141));
    let last = up_to(rng, 35);
    let one = (first * second, third * last);
    let other = (first * third, second * last);
    (one, other)
}

/// Two readings whose powers differ by 1, the lower first.
fn one_apart(rng: &mut Rng) -> (Pair, Pair) {
    let side = 1 + up_to(rng, MOST_MILLIAMPERES - 1);
    ((side + 1, side - 1), (side, side))
}

/// Any two readings of different powers, the lower first.
fn apart(rng: &mut Rng) -> (Pair, Pair) {
    let [one, other] = [(); 2].map(|_| {
        let volts = up_to(rng, MOST_MILLIVOLTS);
        (volts, up_to(rng, MOST_MILLIAMPERES))
    });
    match (one.0 * one.1).cmp(&(other.0 * other.1)) {
        Ordering::Less => (one, other),
        Ordering::Equal => one_apart(rng),
        Ordering::Greater => (other, one),
    }
}

/// A step of a length, either way.
pub fn step_of(rng: &mut Rng, length: u32) -> i32 {
    rng.pick(&[-1, 1]) * length as i32
}

/// The moves of a walk: with the longest step, enough to get from end to end and back.
pub const MOVES: u32 = 100;

/// A panel whose current is the same up to the peak of its power. Past it, from each set
/// point to the next, the power is to fall by as much as the set point has millivolts: so
/// it falls strictly with whole milliamperes too, until there are none.
#[derive(Clone, Copy, Debug)]
pub struct Panel {
    /// The set point at which it gives most.
    pub peak: u32,
    /// Its current there.
    pub amps: u32,
}

impl Panel {
    /// A panel for steps of a length: its peak is anywhere, mostly near an end or at it,
    /// and its power falls strictly for two steps past it, or up to the end.
    pub fn for_steps(rng: &mut Rng, length: u32) -> Panel {
        let room = 2 * length;
        let least = Panel::least_peak(length);
        let peak = match rng.below(5) {
            0 => least,
            1 => least + up_to(rng, room - least),
            2 => MOST_MILLIVOLTS,
            3 => MOST_MILLIVOLTS - up_to(rng, room),
            _ => least + up_to(rng, MOST_MILLIVOLTS - least),
        };
        let past = room.min(MOST_MILLIVOLTS - peak);
        let fewest = fallen(peak, past).div_ceil(peak).max(1);
        let amps = fewest + up_to(rng, MOST_MILLIAMPERES - fewest);
        Panel { peak, amps }
    }

    /// The lowest peak for steps of a length: there the greatest current gives as much
    /// power as is to fall within two steps. A peak at 0 can't be had with readings: the
    /// power there is 0, and past it there is none that is less.
    pub fn least_peak(length: u32) -> u32 {
        let past = 2 * length;
        fallen(0, past).div_ceil(MOST_MILLIAMPERES - past)
    }

    /// What it gives where it is held.
    pub fn at(&self, set_point: u32) -> Pair {
        let Panel { peak, amps } = *self;
        let amps = match set_point > peak {
            true => (peak * amps).saturating_sub(fallen(peak, set_point - peak)) / set_point,
            false => amps,
        };
        (set_point, amps)
    }

    /// Whether a move between two set points starts on one side of the peak, or at it,
    /// and ends on the other, or at it.
    pub fn crossed(&self, from: u32, to: u32) -> bool {
        from.min(to) <= self.peak && self.peak <= from.max(to)
    }
}

/// How much power is to fall within so many millivolts past a peak: the sum of these set
/// points, from the peak on.
fn fallen(peak: u32, past: u32) -> u32 {
    past * peak + past * past.saturating_sub(1) / 2
}

/// A panel to climb on, and where the climb begins.
#[derive(Clone, Copy, Debug)]
pub struct Climb {
    /// The panel.
    pub panel: Panel,
    /// Where it is held at first.
    pub set_point: u32,
    /// The first step.
    pub step: i32,
}

impl Climb {
    /// One that begins so near to the peak that half a walk gets there.
    pub fn new(rng: &mut Rng) -> Climb {
        let length = length(rng);
        let panel = Panel::for_steps(rng, length);
        let away = up_to(rng, MOVES * length / 2);
        let set_point = match rng.below(2) {
            0 => panel.peak.saturating_sub(away),
            _ => (panel.peak + away).min(MOST_MILLIVOLTS),
        };
        let step = step_of(rng, length);
        Climb {
            panel,
            set_point,
            step,
        }
    }
}
