//! `ems plot`: the flight as a picture.

use crate::args::Plot;
use crate::failure::Failure;
use crate::flight::Flight;
use crate::output::{self, Output};
use crate::plot::{draw, Record, View};
use std::io::Write;
use std::path::Path;

pub fn run(plot: &Plot) -> Result<(), Failure> {
    output::spare(&plot.flight.file, &plot.output)?;
    let mut flight = Flight::going(&plot.flight, plot.going.keep_going)?;
    let mut record = Record::new(&flight.board.image());
    while let Some(step) = flight.step()? {
        record.add(flight.frame(), &step);
    }
    let view = View::of(&record, plot.from, plot.to).map_err(Failure::usage)?;
    let mut output = Output::at(&plot.output)?;
    let title = title(plot.title.as_deref(), &plot.flight.file, flight.name());
    output.write_all(draw(&view, &title).as_bytes())?;
    output.flush()?;
    flight.end()
}

/// The title that was given, or the file's name; standard input has one of its own.
pub fn title(given: Option<&str>, file: &Path, name: &str) -> String {
    let file = file.file_name().filter(|name| *name != "-");
    let file = file.map(|name| name.to_string_lossy().into_owned());
    let given = given.map(str::to_string).or(file);
    given.unwrap_or_else(|| name.to_string())
}
