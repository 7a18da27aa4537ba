//! `ems log`: exactly what `step-log` prints.

use crate::args;
use crate::failure::Failure;
use crate::flight::Flight;
use crate::output::Output;
use ems::Report;
use std::io::Write;

const HEADER: &str = "n kind origin serial answer mode requested on failed beacon";

pub fn run(flight: &args::Flight) -> Result<(), Failure> {
    let mut flight = Flight::open(flight)?;
    let mut output = Output::standard()?;
    writeln!(output, "{HEADER}")?;
    while let Some(step) = flight.step()? {
        match step.outcome {
            Ok(report) => writeln!(output, "{} {}", step.n, line(&report))?,
            Err(refusal) => writeln!(output, "{} refused {refusal}", step.n)?,
        }
    }
    output.flush()?;
    flight.end()
}

/// A report's fields in its own order.
fn line(report: &Report) -> String {
    let Report {
        kind,
        origin,
        serial,
        answer,
        mode,
        requested,
        on,
        failed,
        beacon,
    } = report;
    let masks = format!("{requested:02X} {on:02X} {failed:02X}");
    format!("{kind:02X} {origin} {serial} {answer} {mode} {masks} {beacon}")
}
