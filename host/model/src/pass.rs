//! A whole pass in one call.

use crate::frame;
use crate::report::{self, Report};
use crate::state::State;
use crate::step::step;

/// What comes of a pass.
#[derive(Clone, Debug, PartialEq, Eq)]
pub struct Passed {
    /// The reports, one for each frame that got one.
    pub reports: Vec<Report>,
    /// Why it stopped: 0 where no bytes are left.
    pub answer: u8,
}

/// Takes frames end to end, with so many bytes of reply room: single steps in
/// order, up to the first that is refused. What was done stands.
pub fn pass(state: &mut State, mut input: &[u8], mut room: usize) -> Passed {
    let mut reports = Vec::new();
    let mut answer = if state.in_range() { 0 } else { 1 };
    while answer == 0 && !input.is_empty() {
        let (frame, rest) = frame::cut(input);
        match step(state, frame, room) {
            Err(refusal) => answer = refusal,
            Ok(report) => {
                reports.push(report);
                room -= report::BYTES;
                input = rest;
            }
        }
    }
    Passed { reports, answer }
}
