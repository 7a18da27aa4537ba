//! The panel tracker's numbers, on either side of each.

use model::calls;
use model::track::{track, Reading};

fn reading(millivolts: u32, milliamperes: u32) -> Reading {
    Reading {
        millivolts,
        milliamperes,
    }
}

/// A reading in the middle of both ranges.
const MIDDLE: Reading = Reading {
    millivolts: 10_000,
    milliamperes: 2_000,
};

/// The answer to a call.
fn answer(before: Reading, after: Reading, set_point: u32, step: i32) -> u8 {
    track(before, after, set_point, step).err().unwrap_or(0)
}

/// What comes of a move after which the power is as it was.
fn kept(set_point: u32, step: i32) -> (u32, i32) {
    track(MIDDLE, MIDDLE, set_point, step).expect("it is taken")
}

/// What comes of a move after which the power is less.
fn turned(set_point: u32, step: i32) -> (u32, i32) {
    let less = reading(MIDDLE.millivolts, MIDDLE.milliamperes - 1);
    track(MIDDLE, less, set_point, step).expect("it is taken")
}

#[test]
fn a_reading_at_its_limits_and_past_them() {
    for (millivolts, milliamperes, wanted) in [
        (0, 0, 0),
        (20_000, 0, 0),
        (20_001, 0, 16),
        (u32::MAX, 0, 16),
        (0, 5_000, 0),
        (0, 5_001, 16),
        (0, u32::MAX, 16),
        (20_000, 5_000, 0),
        (5_001, 20_000, 16),
    ] {
        let own = reading(millivolts, milliamperes);
        for (before, after) in [(own, MIDDLE), (MIDDLE, own), (own, own)] {
            let given = answer(before, after, 10_000, 100);
            assert_eq!(given, wanted, "{before:?} {after:?}");
        }
    }
}

#[test]
fn a_set_point_at_its_limits_and_past_them() {
    for (set_point, wanted) in [(0, 0), (20_000, 0), (20_001, 16), (u32::MAX, 16)] {
        for step in [1, -1, 500, -500] {
            let given = answer(MIDDLE, MIDDLE, set_point, step);
            assert_eq!(given, wanted, "{set_point} {step}");
        }
    }
}

#[test]
fn a_step_at_its_limits_and_past_them() {
    for (step, wanted) in [
        (0, 16),
        (1, 0),
        (500, 0),
        (501, 16),
        (i32::MAX, 16),
        (-1, 0),
        (-500, 0),
        (-501, 16),
        (i32::MIN, 16),
    ] {
        let given = answer(MIDDLE, MIDDLE, 10_000, step);
        assert_eq!(given, wanted, "{step}");
    }
}

#[test]
fn the_step_keeps_its_sign_unless_the_power_falls() {
    let most = reading(20_000, 5_000);
    for (before, after, keeps) in [
        // The same reading twice, the same power of other numbers, no power.
        (MIDDLE, MIDDLE, true),
        (reading(10_000, 2_000), reading(5_000, 4_000), true),
        (reading(0, 5_000), reading(20_000, 0), true),
        (most, most, true),
        // 24,999,999 and 25,000,000.
        (reading(5_001, 4_999), reading(5_000, 5_000), true),
        (reading(5_000, 5_000), reading(5_001, 4_999), false),
        // The sums go the other way.
        (reading(20_000, 1), reading(300, 300), true),
        (reading(300, 300), reading(20_000, 1), false),
        (most, reading(20_000, 4_999), false),
        (most, reading(19_999, 5_000), false),
        (reading(0, 0), reading(1, 1), true),
        (reading(1, 1), reading(0, 0), false),
    ] {
        for step in [1, -1, 500, -500] {
            let wanted = if keeps { step } else { -step };
            let moved = 10_000_u32.checked_add_signed(wanted).expect("a set point");
            let given = track(before, after, 10_000, step);
            assert_eq!(given, Ok((moved, wanted)), "{before:?} {after:?}");
        }
    }
}

/// Short of an end, exactly at it, and past it by 1 and by a whole step.
#[test]
fn a_move_past_an_end_stops_there_and_turns_the_step() {
    for (set_point, step, wanted) in [
        (19_499, 500, (19_999, 500)),
        (19_500, 500, (20_000, 500)),
        (19_501, 500, (20_000, -500)),
        (20_000, 500, (20_000, -500)),
        (19_999, 1, (20_000, 1)),
        (20_000, 1, (20_000, -1)),
        (501, -500, (1, -500)),
        (500, -500, (0, -500)),
        (499, -500, (0, 500)),
        (0, -500, (0, 500)),
        (1, -1, (0, -1)),
        (0, -1, (0, 1)),
        // Away from the end.
        (20_000, -500, (19_500, -500)),
        (0, 500, (500, 500)),
    ] {
        assert_eq!(kept(set_point, step), wanted, "{set_point} {step}");
        assert_eq!(turned(set_point, -step), wanted, "{set_point} {step}");
    }
}

/// At an end the step turns twice where the power has fallen: the set point stands
/// still for one call, and then leaves.
#[test]
fn a_set_point_at_an_end_leaves_it_again() {
    assert_eq!(kept(19_900, 250), (20_000, -250));
    assert_eq!(turned(20_000, -250), (20_000, -250));
    assert_eq!(kept(20_000, -250), (19_750, -250));
}

#[test]
fn a_refusal_moves_nothing() {
    for (before, set_point, step) in [
        (reading(20_001, 0), 500, 20),
        (MIDDLE, 20_001, 20),
        (MIDDLE, 500, 0),
        (MIDDLE, 500, i32::MIN),
    ] {
        let mut own = (set_point, step);
        assert_eq!(calls::track(before, MIDDLE, &mut own.0, &mut own.1), 16);
        assert_eq!(own, (set_point, step));
    }
    let mut own = (500, 20);
    assert_eq!(calls::track(MIDDLE, MIDDLE, &mut own.0, &mut own.1), 0);
    assert_eq!(own, (520, 20));
}
