//! A walk as a table that other programs read.

use super::Walk;
use std::io::{self, Write};

/// A row for the start and for each call: where it left the set point, what the meter
/// reads there, and the step that was handed back.
pub fn table(output: &mut impl Write, walk: &Walk) -> io::Result<()> {
    writeln!(output, "call,millivolts,milliamperes,microwatts,step")?;
    for (call, point) in walk.points.iter().enumerate() {
        let (set_point, current) = (point.set_point, point.reading.milliamperes);
        let (power, step) = (point.microwatts(), point.step);
        writeln!(output, "{call},{set_point},{current},{power},{step}")?;
    }
    Ok(())
}
