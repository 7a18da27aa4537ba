//! The page's program `step-log`.

use crate::frame;
use crate::report::{self, Report};
use crate::state::State;
use crate::step::step;

const HEADER: &str = "n kind origin serial answer mode requested on failed beacon\n";

/// The log of a stream of frames, from the fresh start.
pub fn step_log(input: &[u8]) -> String {
    let mut state = State::fresh();
    log_of(input, |frame| {
        step(&mut state, frame, report::BYTES).map(|report| report.bytes())
    })
}

/// The log of a stream of frames that are given, one by one, to some board: it
/// gives back the report or the refusal.
pub fn log_of(
    mut input: &[u8],
    mut board: impl FnMut(&[u8]) -> Result<[u8; report::BYTES], u8>,
) -> String {
    let mut log = String::from(HEADER);
    let mut n = 1;
    while !input.is_empty() {
        let (frame, rest) = frame::cut(input);
        match board(frame) {
            Ok(report) => log += &line(n, &Report::from_bytes(&report)),
            Err(refusal) => {
                log += &format!("{n} refused {refusal}\n");
                break;
            }
        }
        input = rest;
        n += 1;
    }
    log
}

/// A frame's line.
fn line(n: usize, report: &Report) -> String {
    let Report {
        kind,
        origin,
        serial,
        answer,
        mode,
        requested,
        on,
        failed,
        beacon,
    } = report;
    let masks = format!("{requested:02X} {on:02X} {failed:02X}");
    format!("{n} {kind:02X} {origin} {serial} {answer} {mode} {masks} {beacon}\n")
}
