//! `ems log --hex`: frames and reports as bytes.

use crate::args;
use crate::failure::Failure;
use crate::flight::Flight;
use crate::output::Output;
use crate::words::{hex, thousands};
use ems::Report;
use std::io::{self, Write};

/// A frame and its report, and how often they come in a row.
struct Exchange {
    frame: Vec<u8>,
    report: Report,
    times: u64,
}

pub fn run(flight: &args::Flight) -> Result<(), Failure> {
    let mut flight = Flight::open(flight)?;
    let mut output = Output::standard()?;
    let mut last: Option<Exchange> = None;
    while let Some(step) = flight.step()? {
        let frame = flight.frame();
        match (step.outcome, &mut last) {
            (Ok(report), Some(last)) if last.frame == frame && last.report == report => {
                last.times += 1;
            }
            (Ok(report), _) => {
                let next = Exchange {
                    frame: frame.to_vec(),
                    report,
                    times: 1,
                };
                end(&mut output, last.replace(next))?;
            }
            (Err(refusal), _) => {
                end(&mut output, last.take())?;
                writeln!(output, "> {}\n< nothing: refused {refusal}", hex(frame))?;
            }
        }
    }
    end(&mut output, last)?;
    output.flush()?;
    flight.end()
}

fn end(output: &mut Output, exchange: Option<Exchange>) -> io::Result<()> {
    let Some(Exchange {
        frame,
        report,
        times,
    }) = exchange
    else {
        return Ok(());
    };
    let times = match times {
        1 => String::new(),
        times => format!("   {} times", thousands(times)),
    };
    writeln!(
        output,
        "> {}{times}\n< {}",
        hex(&frame),
        hex(&report.bytes())
    )
}
