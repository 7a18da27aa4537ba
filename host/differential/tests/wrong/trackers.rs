//! Panel trackers that judge a power, or make a move, in ways that look right.
//! [`ranges`](super::ranges) has those that take or refuse the wrong numbers.

use differential::sides::Track;
use model::calls;
use model::track::{Reading, MOST_MILLIVOLTS};

/// What a tracker does, and the tracker: one of the functions below with a rule.
macro_rules! wrong {
    ($name:literal, $by:ident, $rule:expr) => {
        ($name, |before, after, set_point, step| {
            $by(before, after, set_point, step, $rule)
        })
    };
}
pub(super) use wrong;

/// Those that take something else for a fall of the power.
pub const JUDGED: [(&str, Track); 9] = [
    wrong!("turns at equal power", judged, |before, after| {
        after.power() <= before.power()
    }),
    wrong!("turns as the power rises", judged, |before, after| {
        after.power() > before.power()
    }),
    wrong!("never turns", judged, |_, _| false),
    wrong!("always turns", judged, |_, _| true),
    wrong!("adds volts and amps", judged, |before, after| {
        let sum = |reading: Reading| reading.millivolts + reading.milliamperes;
        sum(after) < sum(before)
    }),
    wrong!("goes by the volts alone", judged, |before, after| {
        after.millivolts < before.millivolts
    }),
    wrong!("goes by the amps alone", judged, |before, after| {
        after.milliamperes < before.milliamperes
    }),
    wrong!("has 16 bits for the power", judged, |before, after| {
        (after.power() as u16) < before.power() as u16
    }),
    wrong!("has milliwatts for the power", judged, |before, after| {
        after.power() / 1_000 < before.power() / 1_000
    }),
];

/// Those that move otherwise.
pub const MOVED: [(&str, Track); 13] = [
    wrong!("keeps its sign past an end", moved, |from, _, by| {
        (within(from + by), by)
    }),
    wrong!("turns exactly at an end", moved, |from, _, by| {
        match within(from + by) {
            end @ (0 | MOST) => (end, -by),
            to => (to, by),
        }
    }),
    wrong!("turns at the upper end alone", moved, |from, _, by| {
        match right(from, by) {
            (0, _) => (0, by),
            right => right,
        }
    }),
    wrong!("goes round past an end", moved, |from, _, by| {
        ((from + by).rem_euclid(MOST + 1), by)
    }),
    wrong!("goes past the upper end", moved, |from, _, by| {
        match from + by {
            to if to > MOST => (to, by),
            _ => right(from, by),
        }
    }),
    wrong!("bounces off an end", moved, |from, _, by| {
        match right(from, by) {
            (end, next) if next != by => (2 * end - from - by, next),
            right => right,
        }
    }),
    wrong!("stays where it is before an end", moved, |from, _, by| {
        match right(from, by) {
            (_, next) if next != by => (from, next),
            right => right,
        }
    }),
    wrong!("stops one short of an end", moved, |from, _, by| {
        match right(from, by) {
            (end, next) if next != by => (end - by.signum(), next),
            right => right,
        }
    }),
    wrong!("hands back what was left of it", moved, |from, _, by| {
        match right(from, by) {
            (end, next) if next != by => (end, from - end),
            right => right,
        }
    }),
    wrong!("moves by the step as it was", moved, |from, was, by| {
        (right(from, was).0, right(from, by).1)
    }),
    wrong!("hands back the step as it was", moved, |from, was, by| {
        (right(from, by).0, was)
    }),
    wrong!("turns and stays where it is", moved, |from, was, by| {
        match was == by {
            true => right(from, by),
            false => (from, by),
        }
    }),
    // As the source's own words have it: up after a rise, down after a fall.
    wrong!("goes up as the power rises", moved, |from, was, by| {
        let up = was == by;
        right(from, if up { was.abs() } else { -was.abs() })
    }),
];

/// A tracker that turns the step where a rule says so of two readings in range.
fn judged(
    before: Reading,
    after: Reading,
    set_point: &mut u32,
    step: &mut i32,
    turns: fn(Reading, Reading) -> bool,
) -> u8 {
    let reading = |milliamperes| Reading {
        millivolts: 1,
        milliamperes,
    };
    let (before, after) = match before.in_range() && after.in_range() {
        true if turns(before, after) => (reading(1), reading(0)),
        true => (reading(0), reading(1)),
        false => (before, after),
    };
    calls::track(before, after, set_point, step)
}

/// The upper end.
const MOST: i32 = MOST_MILLIVOLTS as i32;

/// A set point, or the end that it is past.
fn within(set_point: i32) -> i32 {
    set_point.clamp(0, MOST)
}

/// The set point and the step after a move.
fn right(from: i32, by: i32) -> (i32, i32) {
    match within(from + by) {
        to if to == from + by => (to, by),
        end => (end, -by),
    }
}

/// A tracker that moves by a rule, which makes a set point and a step of the set point
/// before, the step as it was, and the step that is to be moved by.
fn moved(
    before: Reading,
    after: Reading,
    set_point: &mut u32,
    step: &mut i32,
    rule: fn(i32, i32, i32) -> (i32, i32),
) -> u8 {
    let (from, was) = (*set_point, *step);
    let answer = calls::track(before, after, set_point, step);
    if answer == 0 {
        let falls = after.power() < before.power();
        let (to, next) = rule(from as i32, was, if falls { -was } else { was });
        (*set_point, *step) = (to as u32, next);
    }
    answer
}
