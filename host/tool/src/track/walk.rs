//! The walk of a set point on a curve: one call of the library after the other.

use super::refused::Refused;
use super::Curve;
use ems::{answer, Reading};

/// Where a call has left the set point.
#[derive(Clone, Copy, Debug)]
pub struct Point {
    pub set_point: u32,
    /// What the meter reads there.
    pub reading: Reading,
    /// The step that was handed back; at the start, the one that was given.
    pub step: i32,
}

impl Point {
    /// The product of what is read, in microwatts.
    pub fn microwatts(&self) -> u64 {
        u64::from(self.reading.millivolts) * u64::from(self.reading.milliamperes)
    }

    /// The same in milliwatts.
    pub fn milliwatts(&self) -> f64 {
        self.microwatts() as f64 / 1_000.0
    }
}

/// The start, and where each call has left the set point: the one of call n stands at
/// place n.
#[derive(Debug)]
pub struct Walk {
    pub points: Vec<Point>,
    /// The call that was not done, if one wasn't: the last.
    pub refused: Option<Refused>,
}

impl Walk {
    /// Walks for so many calls, or up to one that is refused. Before the first call
    /// nothing has moved: both of its readings are the start's.
    pub fn on(curve: &Curve, start: u32, step: i32, calls: u32) -> Walk {
        let (mut set_point, mut step) = (start, step);
        let mut after = curve.reading(start);
        let mut before = after;
        let mut points = vec![Point {
            set_point,
            reading: after,
            step,
        }];
        for call in 1..=calls {
            let answer = ems::track(before, after, &mut set_point, &mut step);
            if answer != answer::DONE {
                let refused = Some(Refused {
                    call,
                    answer,
                    reading: after,
                    step,
                });
                return Walk { points, refused };
            }
            (before, after) = (after, curve.reading(set_point));
            points.push(Point {
                set_point,
                reading: after,
                step,
            });
        }
        let refused = None;
        Walk { points, refused }
    }

    /// The start.
    pub fn first(&self) -> Point {
        self.points[0]
    }

    /// Where the last call has left the set point.
    pub fn last(&self) -> Point {
        self.points[self.calls()]
    }

    /// How many calls were done.
    pub fn calls(&self) -> usize {
        self.points.len() - 1
    }

    /// The step's length, which no call changes.
    pub fn length(&self) -> u32 {
        self.first().step.unsigned_abs()
    }

    /// Each set point once, from the lowest to the highest.
    pub fn visited(&self) -> Vec<Point> {
        let mut visited = self.points.clone();
        visited.sort_by_key(|point| point.set_point);
        visited.dedup_by_key(|point| point.set_point);
        visited
    }
}
