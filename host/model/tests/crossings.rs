//! Crossings and requests: upward none moves, downward the mission four's go off, and an
//! order for one of the core four holds until the next one for it.

use model::state::{Mode, Power, CONTROL_TICKS};
use model::table::{FROM_GROUND, MISSION, MODULES, ORDER, TICK};
use model::{report, step, State};

const CORE: u8 = 0x27;
const COMM2: u8 = 2;

const ON: Power = Power::On {
    tries: 5,
    seconds: 0,
};

/// A board in a mode, with these modules requested, before a tick with this count.
fn board(mode: Mode, tension: u16, control: u8, requested: u8) -> State {
    let mut state = State::fresh();
    (state.mode, state.tension, state.control) = (mode, tension, control);
    for (module, row) in state.modules.iter_mut().zip(&MODULES) {
        module.requested = requested & row.bit() != 0;
    }
    state.gather_masks();
    state
}

fn frame(state: &mut State, bytes: &[u8]) {
    let report = step::step(state, bytes, report::BYTES).expect("a report");
    assert_eq!(report.answer, 0, "{bytes:02X?}");
}

fn tick(state: &mut State) {
    frame(state, &[TICK, 0]);
}

#[test]
fn an_upward_crossing_requests_nothing_and_drops_nothing() {
    for requested in 0..=u8::MAX {
        let mut state = board(Mode::Recovery, 7_401, 29, requested);
        tick(&mut state);
        assert_eq!(state.mode, Mode::Safe);
        assert_eq!(state.masks.requested, requested);
        // SAFE allows all eight, from this very tick on.
        assert_eq!(state.masks.on, requested);
    }
}

#[test]
fn a_downward_crossing_drops_the_mission_four_and_leaves_the_core_four() {
    for requested in 0..=u8::MAX {
        let mut state = board(Mode::Safe, 6_999, 29, requested);
        for module in &mut state.modules {
            module.power = ON;
        }
        state.gather_masks();
        tick(&mut state);
        assert_eq!(state.mode, Mode::Recovery);
        assert_eq!(state.masks.requested, requested & CORE);
        assert_eq!(state.masks.on, requested & CORE);
    }
}

/// Equality, no reading, and a tick that judges nothing.
#[test]
fn without_a_crossing_no_request_moves() {
    for (mode, tension, control) in [
        (Mode::Recovery, 7_400, 29),
        (Mode::Recovery, 0, 29),
        (Mode::Recovery, 7_401, 28),
        (Mode::Safe, 7_000, 29),
        (Mode::Safe, 6_999, 28),
    ] {
        for requested in 0..=u8::MAX {
            let mut state = board(mode, tension, control, requested);
            tick(&mut state);
            assert_eq!(state.mode, mode, "{tension} {control}");
            assert_eq!(state.masks.requested, requested, "{tension} {control}");
        }
    }
}

/// Before any reading SAFE is never reached; from such a state the mode falls.
#[test]
fn no_reading_is_below_descend() {
    let mut state = board(Mode::Safe, 0, 29, 0xFF);
    tick(&mut state);
    assert_eq!((state.mode, state.masks.requested), (Mode::Recovery, CORE));
}

/// An end that runs out in a tick that crosses drops its own request, as in any other.
#[test]
fn an_end_runs_out_in_the_tick_that_crosses() {
    for place in 0..4 {
        let mut state = board(Mode::Recovery, 7_401, 29, 0xFF);
        state.ends = [7; 4];
        state.ends[place] = 1;
        tick(&mut state);
        assert_eq!(state.mode, Mode::Safe);
        assert_eq!(state.masks.requested, !(1 << MISSION[place]));
        let mut wanted = [6; 4];
        wanted[place] = 0;
        assert_eq!(state.ends, wanted);
    }
}

/// Ticks up to a judgement, with this tension: the mode that it leaves.
fn judged(state: &mut State, tension: u16) -> Mode {
    let [high, low] = tension.to_be_bytes();
    frame(state, &[0x02, high, low]);
    for _ in 0..CONTROL_TICKS {
        tick(state);
    }
    state.mode
}

/// An order of the ground, with the next serial.
fn order(state: &mut State, module: u8, on: bool) {
    let [high, low] = (state.last.ground + 1).to_be_bytes();
    frame(state, &[ORDER, FROM_GROUND, high, low, module, on.into()]);
}

#[test]
fn comm2_ordered_off_is_off_until_it_is_ordered_on() {
    let mut state = board(Mode::Recovery, 7_200, 0, CORE);
    let quiet = CORE & !(1 << COMM2);
    assert_eq!(judged(&mut state, 7_200), Mode::Recovery);
    assert_eq!(state.masks.on, CORE);
    order(&mut state, COMM2, false);
    for (tension, mode) in [
        (8_000, Mode::Safe),
        (6_000, Mode::Recovery),
        (8_000, Mode::Safe),
    ] {
        assert_eq!(judged(&mut state, tension), mode);
        assert_eq!((state.masks.requested, state.masks.on), (quiet, quiet));
    }
    order(&mut state, COMM2, true);
    tick(&mut state);
    assert_eq!((state.masks.requested, state.masks.on), (CORE, CORE));
}

/// Each of the core four, ordered off in either mode and on again in either.
#[test]
fn a_core_module_is_as_it_was_ordered_in_every_mode() {
    for module in [0, 1, 2, 5] {
        for (start, first, then) in [
            (Mode::Recovery, (8_000, Mode::Safe), (6_000, Mode::Recovery)),
            (Mode::Safe, (6_000, Mode::Recovery), (8_000, Mode::Safe)),
        ] {
            let mut state = board(start, 7_200, 0, CORE);
            for (tension, mode) in [first, then] {
                for on in [false, true] {
                    order(&mut state, module, on);
                    let wanted = CORE & !(u8::from(!on) << module);
                    let before = state.mode;
                    assert_eq!(judged(&mut state, 7_200), before);
                    assert_eq!(state.masks.on, wanted, "{module} {on}");
                }
                order(&mut state, module, false);
                assert_eq!(judged(&mut state, tension), mode);
                assert_eq!(state.masks.on, CORE & !(1 << module), "{module}");
            }
        }
    }
}
