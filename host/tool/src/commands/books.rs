//! `ems books`: how long each module was on, off and failed.

use super::{begin, plot::title};
use crate::args;
use crate::books::{table, told, Books};
use crate::failure::{Failure, CONCLUSIONS};
use crate::flight::Flight;
use crate::output::Output;
use crate::plot::books::draw;
use ems::BOOKS_NUMBERS;
use std::io::Write;
use std::path::Path;

pub fn run(args: &args::Books) -> Result<(), Failure> {
    let file = args.flight.file.as_path();
    begin::check(&args.begin, file, args.output.as_deref())?;
    let flight = Flight::going(&args.flight, args.going.keep_going)?;
    let mut flight = flight.with_board(begin::board(&args.begin)?);
    let books = Books::of(&mut flight, [0; BOOKS_NUMBERS])?;
    let told = told(&books);
    if let Some(path) = &args.output {
        let title = title(args.title.as_deref(), file, flight.name());
        let mut output = Output::at(path)?;
        output.write_all(draw(&books, &title, &told).as_bytes())?;
        output.flush()?;
    }
    if args.output.as_deref() != Some(Path::new("-")) {
        let mut output = Output::standard()?;
        match args.table {
            true => table(&mut output, &books)?,
            false => output.write_all(told.as_bytes())?,
        }
        output.flush()?;
    }
    if let Err(whose) = books.adds_up() {
        let name = flight.name();
        let message = format!("{name}: the seconds do not add up to the ticks done: {whose}");
        return Err(Failure::new(CONCLUSIONS, message));
    }
    flight.end()
}
