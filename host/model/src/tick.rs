//! One tick: the deploy phase, or ends, control, modules and beacon in this order.

use crate::state::{
    Mode, Power, State, BASIC_TICKS, CLEAN_SECONDS, COMPLETE_TICKS, CONTROL_TICKS, FAILED_SECONDS,
    SETTLE_SECONDS, TRIES, WAIT_SECONDS,
};
use crate::table::{MISSION, MODULES};

/// Passes a second with these shorts; gives the beacon that is due.
pub fn tick(state: &mut State, shorts: u8) -> u8 {
    if state.mode.deploying() {
        state.mode = deploy(state.mode, state.antennas);
        return 0;
    }
    ends(state);
    control(state);
    for (module, row) in state.modules.iter_mut().zip(&MODULES) {
        let allowed = row.core || state.mode == Mode::Safe;
        let wanted = module.requested && allowed;
        module.power = second(module.power, wanted, shorts & row.bit() != 0);
    }
    beacon(state)
}

/// A second of DEPLOY_WAIT.
fn deploy(mode: Mode, antennas: bool) -> Mode {
    match mode {
        Mode::Waiting(waited) if antennas || waited + 1 == WAIT_SECONDS => {
            Mode::Settling(SETTLE_SECONDS)
        }
        Mode::Waiting(waited) => Mode::Waiting(waited + 1),
        Mode::Settling(1) => Mode::Recovery,
        Mode::Settling(left) => Mode::Settling(left - 1),
        Mode::Recovery | Mode::Safe => mode,
    }
}

/// The stage of the ends: one that runs falls by 1, and as it reaches 0 the
/// module's request goes off.
fn ends(state: &mut State) {
    for (end, module) in state.ends.iter_mut().zip(MISSION) {
        if *end > 0 {
            *end -= 1;
            if *end == 0 {
                state.modules[usize::from(module)].requested = false;
            }
        }
    }
}

/// The control stage: a crossing upward changes the mode alone.
fn control(state: &mut State) {
    state.control += 1;
    if state.control < CONTROL_TICKS {
        return;
    }
    state.control = 0;
    if state.mode == Mode::Recovery && state.tension > state.ascend {
        state.mode = Mode::Safe;
    } else if state.mode == Mode::Safe && state.tension < state.descend {
        state.mode = Mode::Recovery;
        drop_mission(state);
    }
}

/// The mission four are requested off, and their ends dropped.
fn drop_mission(state: &mut State) {
    for module in MISSION {
        state.modules[usize::from(module)].requested = false;
    }
    state.ends = [0; 4];
}

/// A module's power after a second of the module stage.
fn second(power: Power, wanted: bool, short: bool) -> Power {
    match power {
        Power::On { tries, .. } if short => shorted(tries),
        Power::On { tries, .. } if !wanted => Power::Off(tries),
        Power::On { tries, seconds } => stayed(tries, seconds + 1),
        Power::Failed(left) if left > 0 => Power::Failed(left - 1),
        other if !wanted => other,
        Power::Off(tries) if short => shorted(tries),
        Power::Off(tries) => started(tries),
        Power::Failed(_) if short => Power::Failed(FAILED_SECONDS),
        Power::Failed(_) => started(1),
    }
}

/// A short takes one of the tries; at none the module has failed.
fn shorted(tries: u16) -> Power {
    match tries - 1 {
        0 => Power::Failed(FAILED_SECONDS),
        left => Power::Off(left),
    }
}

/// On with these tries; the second that starts it is not counted.
fn started(tries: u16) -> Power {
    let seconds = 0;
    Power::On { tries, seconds }
}

/// On for so many seconds in a row without a short: all tries return after the
/// last, and nothing is counted while it has them.
fn stayed(tries: u16, seconds: u16) -> Power {
    if tries == TRIES || seconds == CLEAN_SECONDS {
        return started(TRIES);
    }
    Power::On { tries, seconds }
}

/// The beacon stage: 0 none, 1 basic, 2 complete, 3 extended.
fn beacon(state: &mut State) -> u8 {
    state.beacon += 1;
    let due = match state.mode {
        Mode::Safe if state.beacon.is_multiple_of(COMPLETE_TICKS) => match state.message.sent() {
            true => 3,
            false => 2,
        },
        Mode::Recovery if state.beacon == BASIC_TICKS => 1,
        _ => return 0,
    };
    state.beacon = 0;
    due
}
