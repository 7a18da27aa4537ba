//! One frame through the board: all checks, the rules, the report.

use crate::frame::{self, Body, Frame, Sender};
use crate::report::{self, Report};
use crate::state::{Mode, State};
use crate::table::MISSION;
use crate::tick;

/// Takes one frame, with so many bytes of reply room: the refusal, or the
/// report. A refusal leaves the state as it is.
pub fn step(state: &mut State, input: &[u8], room: usize) -> Result<Report, u8> {
    if !state.in_range() {
        return Err(1);
    }
    if room < report::BYTES {
        return Err(2);
    }
    let frame = frame::read(input)?;
    let (answer, due) = match late(state, frame.sender) {
        Some(answer) => (answer, 0),
        None => act(state, &frame),
    };
    state.gather_masks();
    Ok(Report::of(state, &frame, answer, due))
}

/// Replies 8 and 9, by the distance of a frame's serial.
fn late(state: &State, sender: Option<Sender>) -> Option<u8> {
    let Sender { origin, serial } = sender?;
    let last = state.last.of(origin);
    let distance = (65_536 + u32::from(serial) - u32::from(last)) % 65_536;
    match distance {
        0 => Some(8),
        1..=32_767 => None,
        _ => Some(9),
    }
}

/// Acts on a frame that is not late; the answer, and the beacon that is due.
fn act(state: &mut State, frame: &Frame) -> (u8, u8) {
    if let Some(Sender { origin, serial }) = frame.sender {
        state.last.set(origin, serial);
    }
    match frame.body {
        Body::Tick(shorts) => return (0, tick::tick(state, shorts)),
        Body::Battery(tension) => state.tension = tension,
        Body::Antennas(deployed) => state.antennas = deployed,
        Body::Order { module, on } => return (order(state, module, on, 0), 0),
        Body::Timed { module, minutes } => {
            let seconds = 60 * u32::from(minutes);
            return (order(state, module, true, seconds), 0);
        }
        Body::Thresholds { ascend, descend } => {
            state.ascend = ascend;
            state.descend = descend;
        }
        Body::Greeting(message) => state.message = message.kept(),
    }
    (0, 0)
}

/// An order for a module, with the seconds to its end, 0 for none: its answer.
/// What ran before is replaced or dropped.
fn order(state: &mut State, module: u8, on: bool, seconds: u32) -> u8 {
    if on && MISSION.contains(&module) && state.mode != Mode::Safe {
        return 10;
    }
    state.modules[usize::from(module)].requested = on;
    if let Some(end) = state.end_of(module) {
        *end = seconds;
    }
    0
}
