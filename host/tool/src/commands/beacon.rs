//! `ems beacon`: the text that falls due, or the one with the greeting.

use crate::args;
use crate::board::Board;
use crate::failure::{Failure, REFUSED};
use crate::flight::Flight;
use crate::output::{self, Output};
use crate::tables::{meaning, TICK};
use crate::words;
use ems::Beacon;
use std::io::Write;

/// A second without shorts.
const QUIET: [u8; 2] = [TICK, 0];

/// Longer than any board is silent: a day of waiting, and the rest.
const PATIENCE: u64 = 2 * 86_400;

pub fn run(beacon: &args::Beacon) -> Result<(), Failure> {
    let mut flight = Flight::going(&beacon.flight, beacon.going.keep_going)?;
    let mut output = Output::standard()?;
    let (mut due, mut absent) = (None, None);
    while let Some(step) = flight.step()? {
        // A frame that is refused leaves everything as it is, what is due too.
        let Ok(report) = step.outcome else { continue };
        due = Beacon::of(report.beacon);
        if let Some(due) = due.filter(|_| beacon.all) {
            let (time, text) = (words::clock(step.seconds), flight.board.beacon(due));
            writeln!(output, "{time}  {due:8}  {}", text.unwrap_or_default())?;
        }
    }
    if !beacon.all && !flight.is_cut_off() {
        let which = match beacon.extended {
            true => Some(Beacon::Extended),
            false => wait(&mut flight.board, due),
        };
        match which.map(|which| flight.board.beacon(which)) {
            Some(Ok(text)) => writeln!(output, "{text}")?,
            Some(Err(refusal)) => absent = Some(refusal),
            None => {}
        }
    }
    output.flush()?;
    match (flight.end(), absent.map(refused)) {
        (Ok(()), Some(message)) => Err(Failure::new(REFUSED, message)),
        (ended, message) => ended.map_err(|failure| failure.and(message)),
    }
}

/// What is said of a text that was asked for and can't be had.
fn refused(refusal: u8) -> String {
    format!("the text is refused: {refusal}, {}", meaning(refusal))
}

/// The beacon that is due; if none is, the board is left alone until one is, and
/// it is said how long that takes.
fn wait(board: &mut Board, mut due: Option<Beacon>) -> Option<Beacon> {
    let mut waited = 0;
    while due.is_none() && waited < PATIENCE {
        let report = board.step(&QUIET).outcome.ok();
        due = report.and_then(|report| Beacon::of(report.beacon));
        waited += 1;
    }
    if waited > 0 {
        let time = words::count(waited, "second");
        output::say(&format!(
            "none is due at the end; left alone, the next is after {time}"
        ));
    }
    due
}
