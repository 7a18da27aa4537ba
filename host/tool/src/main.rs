//! `ems`, the ground tool: one command for those who fly the bus.

#![forbid(unsafe_code)]

mod args;
mod board;
mod books;
mod closed;
mod commands;
mod compare;
mod failure;
mod few;
mod flight;
mod image;
mod mistake;
mod morse;
mod output;
mod pass;
mod plot;
mod progress;
mod refusal;
mod report;
mod script;
mod source;
mod story;
mod stream;
mod tables;
mod telling;
mod text;
mod track;
mod words;

use args::{Command, Line};
use clap::{error::ErrorKind, Parser};
use failure::Failure;
use output::Output;
use std::io::Write;
use std::process::ExitCode;

fn main() -> ExitCode {
    let outcome = match Line::try_parse() {
        Ok(line) => run(&line.command),
        Err(error) if error.use_stderr() => Err(usage(&error)),
        Err(error) => help(&error),
    };
    match outcome {
        Ok(()) => ExitCode::SUCCESS,
        Err(failure) => {
            failure.messages.iter().for_each(|said| output::say(said));
            ExitCode::from(failure.status)
        }
    }
}

fn run(command: &Command) -> Result<(), Failure> {
    match command {
        Command::Log(log) if log.explain => commands::explain::run(&log.flight, log.keep_going),
        Command::Log(log) if log.hex => commands::hex::run(&log.flight),
        Command::Log(log) => commands::log::run(&log.flight),
        Command::Frames(frames) => commands::frames::run(frames),
        Command::Uplink(uplink) => commands::uplink::run(uplink),
        Command::Show(show) => commands::show::run(show),
        Command::Plot(plot) => commands::plot::run(plot),
        Command::Books(books) => commands::books::run(books),
        Command::Beacon(beacon) => commands::beacon::run(beacon),
        Command::Key(key) => commands::key::run(key),
        Command::Read(read) => commands::read::run(read),
        Command::Room(room) => commands::room::run(room),
        Command::Compare(compare) => commands::compare::run(compare),
        Command::Image(image) => commands::image::run(image),
        Command::Track(track) => commands::track::run(track),
    }
}

/// What is wrong with the command line, without the word it begins with.
fn usage(error: &clap::Error) -> Failure {
    let text = error.to_string();
    let text = text.trim_start_matches("error: ").trim_end();
    match error.kind() {
        ErrorKind::DisplayHelpOnMissingArgumentOrSubcommand => {
            Failure::usage(format!("a command is missing\n\n{text}"))
        }
        _ => Failure::usage(text),
    }
}

/// The help or the version that was asked for.
fn help(error: &clap::Error) -> Result<(), Failure> {
    let mut output = Output::standard()?;
    write!(output, "{error}")?;
    Ok(output.flush()?)
}
