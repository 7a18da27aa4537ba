//! Panel trackers that take or refuse the wrong numbers, or do something at a refusal, in
//! ways that look right.

use super::trackers::wrong;
use differential::sides::Track;
use model::calls;
use model::track::{Reading, LONGEST_STEP, MOST_MILLIAMPERES, MOST_MILLIVOLTS};

/// What each takes, and the tracker.
pub const TAKEN: [(&str, Track); 14] = [
    wrong!("takes 20,001 mV before the move", read_as, |own| {
        fall_to(&mut own.before.millivolts, MOST_MILLIVOLTS);
    }),
    wrong!("takes 20,001 mV after the move", read_as, |own| {
        fall_to(&mut own.after.millivolts, MOST_MILLIVOLTS);
    }),
    wrong!("takes 5,001 mA before the move", read_as, |own| {
        fall_to(&mut own.before.milliamperes, MOST_MILLIAMPERES);
    }),
    wrong!("takes 5,001 mA after the move", read_as, |own| {
        fall_to(&mut own.after.milliamperes, MOST_MILLIAMPERES);
    }),
    wrong!("takes a set point of 20,001", read_as, |own| {
        fall_to(&mut own.set_point, MOST_MILLIVOLTS);
    }),
    wrong!("takes a step of 501", read_as, |own| {
        if own.step == LONGEST_STEP + 1 {
            own.step -= 1;
        }
    }),
    wrong!("takes a step of -501", read_as, |own| {
        if own.step == -LONGEST_STEP - 1 {
            own.step += 1;
        }
    }),
    // In 32 bits its size is below 0.
    wrong!("takes the lowest step of all", read_as, |own| {
        if own.step == i32::MIN {
            own.step = -LONGEST_STEP;
        }
    }),
    ("takes a step of 0", |before, after, set_point, step| {
        let mut stays = *set_point;
        match *step {
            0 => calls::track(before, after, &mut stays, &mut 1),
            _ => calls::track(before, after, set_point, step),
        }
    }),
    wrong!("looks at 16 bits of volts and amps", read_as, |own| {
        for reading in [&mut own.before, &mut own.after] {
            reading.millivolts %= 1 << 16;
            reading.milliamperes %= 1 << 16;
        }
    }),
    wrong!("looks at 16 bits of the set point", read_as, |own| {
        own.set_point %= 1 << 16;
    }),
    wrong!("looks at 16 bits of the step", read_as, |own| {
        own.step = (own.step as i16).into();
    }),
    wrong!("takes any reading before the move", read_as, |own| {
        if !own.before.in_range() {
            own.before = own.after;
        }
    }),
    wrong!("takes any set point", read_as, |own| {
        own.set_point = own.set_point.min(MOST_MILLIVOLTS);
    }),
];

/// What each refuses, or does at a refusal, and the tracker.
pub const REFUSED: [(&str, Track); 9] = [
    wrong!("refuses 20,000 mV", read_as, |own| {
        for reading in [&mut own.before, &mut own.after] {
            reading.millivolts += u32::from(reading.millivolts == MOST_MILLIVOLTS);
        }
    }),
    wrong!("refuses 5,000 mA", read_as, |own| {
        for reading in [&mut own.before, &mut own.after] {
            reading.milliamperes += u32::from(reading.milliamperes == MOST_MILLIAMPERES);
        }
    }),
    wrong!("refuses no power", read_as, |own| {
        if own.before.power() == 0 || own.after.power() == 0 {
            own.step = 0;
        }
    }),
    wrong!("refuses a set point at an end", read_as, |own| {
        if [0, MOST_MILLIVOLTS].contains(&own.set_point) {
            own.step = 0;
        }
    }),
    wrong!("refuses the longest step", read_as, |own| {
        if [-LONGEST_STEP, LONGEST_STEP].contains(&own.step) {
            own.step = 0;
        }
    }),
    wrong!("refuses a step down", read_as, |own| {
        own.step = own.step.max(0);
    }),
    (
        "refuses with 6",
        |before, after, set_point, step| match calls::track(before, after, set_point, step) {
            16 => 6,
            answer => answer,
        },
    ),
    (
        "moves the set point at a refusal",
        |before, after, set_point, step| {
            let answer = calls::track(before, after, set_point, step);
            if answer == 16 {
                *set_point = set_point.saturating_add_signed(*step);
            }
            answer
        },
    ),
    (
        "turns the step at a refusal",
        |before, after, set_point, step| {
            let answer = calls::track(before, after, set_point, step);
            if answer == 16 {
                *step = step.wrapping_neg();
            }
            answer
        },
    ),
];

/// What a tracker is called with.
struct Numbers {
    before: Reading,
    after: Reading,
    set_point: u32,
    step: i32,
}

/// A tracker that takes its numbers for others, by a rule.
fn read_as(
    before: Reading,
    after: Reading,
    set_point: &mut u32,
    step: &mut i32,
    rule: fn(&mut Numbers),
) -> u8 {
    let mut own = Numbers {
        before,
        after,
        set_point: *set_point,
        step: *step,
    };
    rule(&mut own);
    let answer = calls::track(own.before, own.after, &mut own.set_point, &mut own.step);
    if answer == 0 {
        (*set_point, *step) = (own.set_point, own.step);
    }
    answer
}

/// Takes the first number past a limit for the limit.
fn fall_to(number: &mut u32, most: u32) {
    if *number == most + 1 {
        *number = most;
    }
}
