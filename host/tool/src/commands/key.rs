//! `ems key`: a text as sound, or as units.

use crate::args::Key;
use crate::failure::{Failure, REFUSED};
use crate::morse;
use crate::output::Output;
use ems::{answer, UNITS_BYTES};
use std::io::Write;
use std::path::Path;

/// Units on a line.
const ROW: usize = 72;

pub fn run(key: &Key) -> Result<(), Failure> {
    let mut room = [0; UNITS_BYTES];
    let (given, count) = ems::key(key.text.as_bytes(), &mut room);
    if given != answer::DONE {
        return Err(Failure::new(REFUSED, morse::unkeyed(&key.text, given)));
    }
    let units = &room[..count];
    let path = key.output.as_deref().unwrap_or(Path::new("-"));
    let mut output = Output::at(path)?;
    if key.units {
        for row in units.chunks(ROW) {
            let row: Vec<u8> = row.iter().map(|unit| b'0' + unit).collect();
            output.write_all(&row)?;
            output.write_all(b"\n")?;
        }
    } else {
        output.write_all(&sound::wav(units, key.speed.wpm, key.tone))?;
    }
    Ok(output.flush()?)
}
