//! The panel tracker: its numbers about every limit, moves about both ends, and walks.

use super::Verdict;
use crate::compare::{self, Tracked};
use crate::rng::Rng;
use crate::shrink::{tell_track, Move};
use crate::sides::Calls;
use crate::tracks::{self, Climb, FAR, FAR_STEPS, MOVES};
use model::track::{LONGEST_STEP, MOST_MILLIAMPERES, MOST_MILLIVOLTS};
use std::cmp::Ordering;

/// What the power does over a move.
const POWERS: [Ordering; 3] = [Ordering::Less, Ordering::Equal, Ordering::Greater];

/// Makes a call of the tracker, or tells.
fn track(sides: &[Calls; 2], case: Move) -> Result<Tracked, String> {
    compare::track(sides, case).map_err(|_| tell_track(sides, case))
}

/// Each of the six numbers about its limits, with each of the others about theirs.
pub fn tracks(sides: &[Calls; 2], rng: &mut Rng) -> Verdict {
    let mut made = 0;
    for (far, far_step) in FAR.into_iter().zip(FAR_STEPS) {
        let volts = tracks::about(rng, MOST_MILLIVOLTS, far);
        let amps = tracks::about(rng, MOST_MILLIAMPERES, far);
        let readings = volts.map(|volts| amps.map(|amps| (volts, amps)));
        let readings = readings.as_flattened();
        let set_points = tracks::about(rng, MOST_MILLIVOLTS, far);
        let steps = tracks::steps_about(rng, far_step);
        for &before in readings {
            for &after in readings {
                for set_point in set_points {
                    for step in steps {
                        track(sides, (before, after, set_point, step))?;
                        made += 1;
                    }
                }
            }
        }
    }
    Ok(made)
}

/// Every step from every set point that a step, or one more millivolt, gets to an end
/// from; over a move the power rises, stays and falls.
pub fn track_ends(sides: &[Calls; 2], rng: &mut Rng) -> Verdict {
    let mut made = 0;
    let steps = || (-LONGEST_STEP..=LONGEST_STEP).filter(|step| *step != 0);
    for away in 0..=LONGEST_STEP as u32 + 1 {
        for set_point in [away, MOST_MILLIVOLTS - away] {
            for step in steps() {
                for power in POWERS {
                    let (before, after) = tracks::readings(rng, power);
                    track(sides, (before, after, set_point, step))?;
                    made += 1;
                }
            }
        }
    }
    Ok(made)
}

/// Walks, in which the set point and the step of one call go into the next: up the power
/// of a panel, and by readings that come as they like.
pub fn track_walks(sides: &[Calls; 2], rng: &mut Rng) -> Verdict {
    let mut made = 0;
    while made < 1_200_000 {
        climb(sides, rng)?;
        wander(sides, rng)?;
        made += 2 * u64::from(MOVES);
    }
    Ok(made)
}

/// A panel is followed: once the peak was crossed, the set point stays less than two
/// steps from it.
fn climb(sides: &[Calls; 2], rng: &mut Rng) -> Result<(), String> {
    let Climb {
        panel,
        mut set_point,
        mut step,
    } = Climb::new(rng);
    let mut before = panel.at(set_point);
    let mut crossed = false;
    for _ in 0..MOVES {
        let after = panel.at(set_point);
        let tracked = track(sides, (before, after, set_point, step))?;
        crossed |= panel.crossed(set_point, tracked.set_point());
        (set_point, step) = (tracked.set_point(), tracked.step());
        if crossed && set_point.abs_diff(panel.peak) >= 2 * step.unsigned_abs() {
            return Err(format!("{panel:?}: strays to {set_point}, step {step}"));
        }
        before = after;
    }
    Ok(())
}

/// The power falls now and then, wherever the set point is.
fn wander(sides: &[Calls; 2], rng: &mut Rng) -> Result<(), String> {
    let length = tracks::length(rng);
    let mut step = tracks::step_of(rng, length);
    let mut set_point = tracks::up_to(rng, MOST_MILLIVOLTS);
    for _ in 0..MOVES {
        let power = match rng.below(20) {
            0 => Ordering::Less,
            1..10 => Ordering::Equal,
            _ => Ordering::Greater,
        };
        let (before, after) = tracks::readings(rng, power);
        let tracked = track(sides, (before, after, set_point, step))?;
        (set_point, step) = (tracked.set_point(), tracked.step());
    }
    Ok(())
}
