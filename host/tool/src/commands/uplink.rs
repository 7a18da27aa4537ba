//! `ems uplink`: what comes of a pass that is handed to the board in one call.

use super::begin;
use crate::args::Uplink;
use crate::board::{Board, Step};
use crate::failure::{Failure, REFUSED};
use crate::flight::refused;
use crate::output::Output;
use crate::pass::{Pass, Worked};
use crate::telling::{Due, Telling};
use ems::{Beacon, Report};
use std::io::{self, Write};
use std::path::Path;

pub fn run(uplink: &Uplink) -> Result<(), Failure> {
    check(uplink)?;
    let pass = Pass::collect(&uplink.flight)?;
    let board = begin::board(&uplink.begin)?;
    let worked = Worked::by(&board, &pass, uplink.room);
    let mut output = Output::standard()?;
    tell(&mut output, board, &pass, &worked.passed.reports)?;
    writeln!(output, "\n{}", worked.said().join("\n"))?;
    output.flush()?;
    if let Some(path) = &uplink.output {
        let mut output = Output::at(path)?;
        output.write_all(worked.passed.image.whole())?;
        output.flush()?;
    }
    match worked.stop() {
        Some(stop) => {
            let told = refused(&pass.name, &stop.sent, stop.answer, pass.hint.clone());
            Err(Failure::new(REFUSED, told))
        }
        None => Ok(()),
    }
}

/// Refuses files that are in each other's way.
fn check(uplink: &Uplink) -> Result<(), Failure> {
    if uplink.output.as_deref() == Some(Path::new("-")) {
        return Err(Failure::usage(
            "the image can't go to standard output, where the text goes: name a file after -o",
        ));
    }
    begin::check(&uplink.begin, &uplink.flight.file, uplink.output.as_deref())
}

/// Tells of the frames that have a report. The reports are those of the one call; the
/// images between, from which it is told what changed, are had by single calls: it is
/// proved that both give the same. A beacon has no text, since who makes one call for
/// all of them has no image to form it from.
fn tell(output: &mut Output, mut board: Board, pass: &Pass, reports: &[Report]) -> io::Result<()> {
    let mut telling = Telling::begin(output)?;
    for (sent, &report) in pass.frames().zip(reports) {
        let step = Step {
            outcome: Ok(report),
            ..board.step(sent.frame)
        };
        let beacon = Beacon::of(report.beacon);
        let due = beacon.map(|beacon| Due { beacon, text: None });
        telling.add(output, sent.frame, &step, due)?;
    }
    telling.end(output)
}
