//! Tries that a module keeps: both sides of every number, what takes one, and what
//! brings them back.

use model::image::{self, at};
use model::state::{Mode, Power};
use model::{report, step, State};

/// The module that the tests look at, and its bit: the S-band board.
const SBAND1: usize = 6;
const SHORT: u8 = 0x40;

fn on(tries: u16, seconds: u16) -> Power {
    Power::On { tries, seconds }
}

/// A board in SAFE that stays there, with the module in this power and requested.
fn board(power: Power) -> State {
    let mut state = State::fresh();
    (state.mode, state.tension) = (Mode::Safe, 8_000);
    state.modules[SBAND1].power = power;
    request(&mut state, true);
    state
}

/// Has the module requested or not, as an order does.
fn request(state: &mut State, wanted: bool) {
    state.modules[SBAND1].requested = wanted;
    state.gather_masks();
}

/// A second with these shorts: the module's power after it.
fn second(state: &mut State, shorts: u8) -> Power {
    let report = step::step(state, &[0x01, shorts], report::BYTES);
    assert_eq!(report.map(|report| report.answer), Ok(0));
    state.modules[SBAND1].power
}

/// So many seconds without a short: the module's power after them.
fn clean(state: &mut State, seconds: u16) -> Power {
    for _ in 0..seconds {
        second(state, 0);
    }
    state.modules[SBAND1].power
}

/// The power after a second in which the module is wanted or not, and short or not.
fn after(power: Power, wanted: bool, short: bool) -> Power {
    let mut state = board(power);
    request(&mut state, wanted);
    second(&mut state, if short { SHORT } else { 0 })
}

/// Off with a try fewer, failed at none.
fn one_fewer(tries: u16) -> Power {
    match tries {
        1 => Power::Failed(600),
        _ => Power::Off(tries - 1),
    }
}

#[test]
fn a_start_keeps_the_tries_and_counts_from_0() {
    for tries in 1..=5 {
        assert_eq!(after(Power::Off(tries), true, false), on(tries, 0));
        assert_eq!(after(Power::Off(tries), false, false), Power::Off(tries));
    }
}

#[test]
fn a_short_takes_a_try_whether_it_is_on_or_being_started() {
    for tries in 1..=5 {
        assert_eq!(after(Power::Off(tries), true, true), one_fewer(tries));
        assert_eq!(after(on(tries, 0), true, true), one_fewer(tries));
    }
    assert_eq!(after(on(4, 30), true, true), Power::Off(3));
    // One that is off and not wanted is not tried.
    assert_eq!(after(Power::Off(3), false, true), Power::Off(3));
}

#[test]
fn a_short_goes_before_not_wanted() {
    for tries in 1..=5 {
        assert_eq!(after(on(tries, 0), false, true), one_fewer(tries));
    }
}

#[test]
fn one_that_is_not_wanted_keeps_its_tries() {
    for tries in 1..=5 {
        assert_eq!(after(on(tries, 0), false, false), Power::Off(tries));
    }
    for tries in 1..=4 {
        assert_eq!(after(on(tries, 59), false, false), Power::Off(tries));
    }
}

#[test]
fn a_failed_one_starts_with_1() {
    assert_eq!(after(Power::Failed(0), true, false), on(1, 0));
    assert_eq!(after(Power::Failed(0), true, true), Power::Failed(600));
    assert_eq!(after(Power::Failed(0), false, false), Power::Failed(0));
    assert_eq!(after(Power::Failed(1), true, false), Power::Failed(0));
    assert_eq!(after(Power::Failed(600), true, false), Power::Failed(599));
}

#[test]
fn all_tries_are_back_after_60_seconds_and_not_after_59() {
    for tries in 1..=4 {
        let mut state = board(Power::Off(tries));
        assert_eq!(clean(&mut state, 1), on(tries, 0));
        assert_eq!(clean(&mut state, 59), on(tries, 59));
        assert_eq!(clean(&mut state, 1), on(5, 0));
    }
}

#[test]
fn nothing_is_counted_with_all_tries() {
    let mut state = board(on(5, 0));
    assert_eq!(clean(&mut state, 61), on(5, 0));
    assert_eq!(second(&mut state, SHORT), Power::Off(4));
}

#[test]
fn a_short_in_the_60th_second_takes_from_the_tries_before_it() {
    for tries in 1..=4 {
        assert_eq!(after(on(tries, 59), true, true), one_fewer(tries));
        let mut state = board(on(tries, 59));
        assert_eq!(clean(&mut state, 1), on(5, 0));
        assert_eq!(second(&mut state, SHORT), Power::Off(4));
    }
}

#[test]
fn a_restart_counts_from_0() {
    let mut state = board(on(3, 59));
    request(&mut state, false);
    assert_eq!(clean(&mut state, 10), Power::Off(3));
    request(&mut state, true);
    assert_eq!(clean(&mut state, 60), on(3, 59));
    assert_eq!(second(&mut state, SHORT), Power::Off(2));
    assert_eq!(clean(&mut state, 60), on(2, 59));
    assert_eq!(clean(&mut state, 1), on(5, 0));
}

#[test]
fn shorts_in_every_second_fail_a_module_in_5() {
    for power in [on(5, 0), Power::Off(5)] {
        let mut state = board(power);
        for tries in (1..=5).rev() {
            assert_eq!(second(&mut state, SHORT), one_fewer(tries));
        }
    }
}

#[test]
fn five_shorts_fail_a_module_that_is_never_on_for_60_seconds() {
    let mut state = board(Power::Off(5));
    for tries in (1..=5).rev() {
        assert_eq!(clean(&mut state, 1), on(tries, 0));
        clean(&mut state, 59);
        assert_eq!(second(&mut state, SHORT), one_fewer(tries));
    }
}

#[test]
fn a_short_every_62_seconds_never_fails_it() {
    let mut state = board(Power::Off(5));
    for _ in 0..20 {
        clean(&mut state, 61);
        assert_eq!(second(&mut state, SHORT), Power::Off(4));
    }
}

/// The ticks after which a module is on, or failed, that was not before; it shorts in
/// every tick that finds it on.
fn starts_and_fails(ticks: u32) -> (Vec<u32>, Vec<u32>) {
    let mut state = board(Power::Off(5));
    let (mut starts, mut fails) = (Vec::new(), Vec::new());
    for tick in 1..=ticks {
        let (was_on, had_failed) = (state.masks.on & SHORT, state.masks.failed & SHORT);
        second(&mut state, was_on);
        if state.masks.on & SHORT > was_on {
            starts.push(tick);
        }
        if state.masks.failed & SHORT > had_failed {
            fails.push(tick);
        }
    }
    (starts, fails)
}

#[test]
fn a_board_that_shorts_a_second_after_each_start() {
    let (starts, fails) = starts_and_fails(2_000);
    assert_eq!(starts, [1, 3, 5, 7, 9, 611, 1_213, 1_815]);
    assert_eq!(fails, [10, 612, 1_214, 1_816]);
}

#[test]
fn a_failed_one_gets_all_tries_by_60_seconds_too() {
    let mut state = board(Power::Failed(600));
    assert_eq!(clean(&mut state, 601), on(1, 0));
    assert_eq!(clean(&mut state, 59), on(1, 59));
    assert_eq!(clean(&mut state, 1), on(5, 0));
}

#[test]
fn in_deploy_wait_a_short_costs_nothing() {
    for power in [
        on(5, 0),
        on(1, 0),
        on(3, 59),
        Power::Off(1),
        Power::Failed(2),
    ] {
        for mode in [Mode::Waiting(0), Mode::Settling(2), Mode::Settling(1)] {
            let mut state = board(power);
            state.mode = mode;
            assert_eq!(second(&mut state, SHORT), power);
        }
    }
}

/// In RECOVERY no mission module is wanted.
#[test]
fn one_that_is_not_allowed_keeps_its_tries() {
    let mut state = board(on(2, 59));
    (state.mode, state.tension) = (Mode::Recovery, 7_200);
    assert_eq!(clean(&mut state, 1), Power::Off(2));
}

/// What check 1 asks of a module that is on.
#[test]
fn tries_and_seconds_on_either_side() {
    for (power, wanted) in [
        (on(0, 0), 1),
        (on(1, 0), 0),
        (on(1, 59), 0),
        (on(1, 60), 1),
        (on(4, 59), 0),
        (on(4, 60), 1),
        (on(5, 0), 0),
        (on(5, 1), 1),
        (on(5, 59), 1),
        (on(6, 0), 1),
    ] {
        let mut state = board(power);
        let report = step::step(&mut state, &[0x03, 1], report::BYTES);
        let answer = report.map_or_else(|refusal| refusal, |report| report.answer);
        assert_eq!(answer, wanted, "{power:?}");
    }
}

/// The last module of an image has the last two bytes.
#[test]
fn a_module_s_number() {
    let last = image::BYTES - 2;
    for (number, power) in [
        (0, on(1, 0)),
        (59, on(1, 59)),
        (60, on(2, 0)),
        (179, on(3, 59)),
        (180, on(4, 0)),
        (239, on(4, 59)),
        (240, on(5, 0)),
        (241, Power::Off(1)),
        (245, Power::Off(5)),
        (246, Power::Failed(0)),
        (846, Power::Failed(600)),
    ] {
        for requested in [false, true] {
            let mut state = State::fresh();
            state.modules[7].power = power;
            state.modules[7].requested = requested;
            state.gather_masks();
            let saved = image::save(&state);
            let number: u16 = number + if requested { 32_768 } else { 0 };
            assert_eq!(saved[last..], number.to_le_bytes());
            assert_eq!(image::load(&saved), Some(state));
        }
    }
}

/// Each number up to 846 is that of a state in range, if the masks say so too, and none
/// above it is.
#[test]
fn every_number_of_a_module() {
    let mut saved = image::save(&State::fresh());
    let last = image::BYTES - 2;
    // The core four are requested, and of all others but the last nothing is said.
    let mask = |core: u8, holds: bool| core | if holds { 0x80 } else { 0 };
    for number in 0..=u16::MAX {
        saved[last..].copy_from_slice(&number.to_le_bytes());
        saved[at::REQUESTED] = mask(0x27, number >= 32_768);
        saved[at::ON] = mask(0, number % 32_768 <= 240);
        saved[at::FAILED] = mask(0, number % 32_768 >= 246);
        let loaded = image::load(&saved);
        assert_eq!(loaded.is_some(), number % 32_768 <= 846, "{number}");
        assert!(loaded.is_none_or(|state| state.in_range() && image::save(&state) == saved));
    }
}
