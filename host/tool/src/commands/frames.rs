//! `ems frames`: a pass script's bytes.

use crate::args::{As, Flight, Frames};
use crate::failure::Failure;
use crate::output::{self, Output};
use crate::progress::Progress;
use crate::source;
use std::io::Write;

pub fn run(frames: &Frames) -> Result<(), Failure> {
    output::spare(&frames.script, &frames.output)?;
    let source = source::open(&Flight {
        file: frames.script.clone(),
        kind: Some(As::Script),
    })?;
    let mut progress = Progress::new(source.length);
    let mut output = Output::at(&frames.output)?;
    for byte in source.bytes {
        let (byte, _) = byte.map_err(|error| Failure::file(&source.name, &error))?;
        output.write_all(&[byte])?;
        progress.advance(1);
    }
    Ok(output.flush()?)
}
