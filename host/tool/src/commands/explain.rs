//! `ems log --explain`: what the board answers, in words.

use crate::args;
use crate::board::Step;
use crate::failure::Failure;
use crate::flight::Flight;
use crate::output::Output;
use crate::telling::{Due, Telling};
use ems::Beacon;
use std::io::Write;

pub fn run(flight: &args::Flight, keep_going: bool) -> Result<(), Failure> {
    let mut flight = Flight::going(flight, keep_going)?;
    let mut output = Output::standard()?;
    let mut telling = Telling::begin(&mut output)?;
    while let Some(step) = flight.step()? {
        let due = due(&flight, &step);
        telling.add(&mut output, flight.frame(), &step, due)?;
    }
    telling.end(&mut output)?;
    output.flush()?;
    flight.end()
}

/// The beacon that a step has made due, and its text.
fn due(flight: &Flight, step: &Step) -> Option<Due> {
    let beacon = Beacon::of(step.outcome.ok()?.beacon)?;
    let text = flight.board.beacon(beacon).ok();
    Some(Due { beacon, text })
}
