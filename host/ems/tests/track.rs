//! The wrapper's panel tracker: each number goes to its own place, and comes back.

use ems::{answer, track, Reading, LONGEST_STEP, MOST_MILLIAMPERES, MOST_MILLIVOLTS};

fn reading(millivolts: u32, milliamperes: u32) -> Reading {
    Reading {
        millivolts,
        milliamperes,
    }
}

/// What a call answers, and the set point and the step that it leaves.
fn tracked(before: Reading, after: Reading, mut set_point: u32, mut step: i32) -> (u8, u32, i32) {
    let answer = track(before, after, &mut set_point, &mut step);
    (answer, set_point, step)
}

#[test]
fn the_reading_before_is_told_from_the_one_after() {
    let (less, more) = (reading(9_000, 3_067), reading(9_250, 3_150));
    assert_eq!(tracked(less, more, 9_250, 250), (answer::DONE, 9_500, 250));
    assert_eq!(tracked(more, less, 9_250, 250), (answer::DONE, 9_000, -250));
    assert_eq!(tracked(more, less, 9_250, -250), (answer::DONE, 9_500, 250));
}

#[test]
fn each_number_has_its_own_limit() {
    let most = reading(MOST_MILLIVOLTS, MOST_MILLIAMPERES);
    let volts = reading(MOST_MILLIVOLTS + 1, MOST_MILLIAMPERES);
    let amps = reading(MOST_MILLIVOLTS, MOST_MILLIAMPERES + 1);
    let step = LONGEST_STEP;
    for (before, after, set_point, step, wanted) in [
        (most, most, MOST_MILLIVOLTS, step, answer::DONE),
        (volts, most, MOST_MILLIVOLTS, step, answer::OUT_OF_RANGE),
        (amps, most, MOST_MILLIVOLTS, step, answer::OUT_OF_RANGE),
        (most, volts, MOST_MILLIVOLTS, step, answer::OUT_OF_RANGE),
        (most, amps, MOST_MILLIVOLTS, step, answer::OUT_OF_RANGE),
        (most, most, MOST_MILLIVOLTS + 1, step, answer::OUT_OF_RANGE),
        (most, most, MOST_MILLIVOLTS, step + 1, answer::OUT_OF_RANGE),
        (most, most, MOST_MILLIVOLTS, -step, answer::DONE),
        (most, most, MOST_MILLIVOLTS, -step - 1, answer::OUT_OF_RANGE),
        (most, most, MOST_MILLIVOLTS, 0, answer::OUT_OF_RANGE),
        (most, most, MOST_MILLIVOLTS, i32::MIN, answer::OUT_OF_RANGE),
    ] {
        let (given, ..) = tracked(before, after, set_point, step);
        assert_eq!(given, wanted, "{before:?} {after:?} {set_point} {step}");
    }
}

#[test]
fn a_refusal_leaves_set_point_and_step() {
    let some = reading(9_000, 3_067);
    for (set_point, step) in [(u32::MAX, -250), (9_000, i32::MIN), (MOST_MILLIVOLTS, 0)] {
        let wanted = (answer::OUT_OF_RANGE, set_point, step);
        assert_eq!(tracked(some, some, set_point, step), wanted);
    }
}

#[test]
fn a_step_turns_at_both_ends() {
    let some = reading(9_000, 3_067);
    for (set_point, step, wanted) in [
        (MOST_MILLIVOLTS, 1, (answer::DONE, MOST_MILLIVOLTS, -1)),
        (MOST_MILLIVOLTS - 1, 1, (answer::DONE, MOST_MILLIVOLTS, 1)),
        (0, -1, (answer::DONE, 0, 1)),
        (1, -1, (answer::DONE, 0, -1)),
    ] {
        assert_eq!(tracked(some, some, set_point, step), wanted);
    }
}
