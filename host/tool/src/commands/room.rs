//! `ems room`: what to set aside for the keying of a text that nobody knows yet.

use crate::args::Room;
use crate::failure::Failure;
use crate::output::Output;
use crate::words::{count, thousands};
use ems::{BEACON_BASIC_BYTES, BEACON_COMPLETE_BYTES, BEACON_EXTENDED_BYTES, TEXT_BYTES};
use std::io::Write;

/// The lengths of the texts that the board itself has.
const OWN: [(usize, &str); 4] = [
    (BEACON_BASIC_BYTES, "the basic beacon"),
    (BEACON_COMPLETE_BYTES, "the complete beacon"),
    (
        BEACON_EXTENDED_BYTES,
        "the extended beacon, with the longest greeting",
    ),
    (TEXT_BYTES, "the longest text"),
];

pub fn run(room: &Room) -> Result<(), Failure> {
    let wpm = room.speed.wpm;
    let given = room.characters.iter();
    let mut rows: Vec<_> = given.map(|&length| (usize::from(length), "")).collect();
    if rows.is_empty() {
        rows.extend(OWN);
    }
    let speed = count(wpm.into(), "word");
    let head = format!("seconds at {speed} a minute");
    let mut output = Output::standard()?;
    writeln!(output, "characters  units at most  {head}")?;
    for (characters, name) in rows {
        let units = ems::units_for(characters);
        let time = seconds(sound::milliseconds(units, wpm));
        let (units, wide) = (thousands(units as u64), head.len());
        let row = format!("{characters:10}  {units:>13}  {time:>wide$}  {name}");
        writeln!(output, "{}", row.trim_end())?;
    }
    Ok(output.flush()?)
}

/// Milliseconds as seconds with one place, rounded up.
fn seconds(milliseconds: u64) -> String {
    let tenths = milliseconds.div_ceil(100);
    format!("{}.{}", thousands(tenths / 10), tenths % 10)
}

#[cfg(test)]
mod tests {
    use super::*;

    #[test]
    fn seconds_are_never_too_few() {
        assert_eq!(seconds(0), "0.0");
        assert_eq!(seconds(1), "0.1");
        assert_eq!(seconds(100), "0.1");
        assert_eq!(seconds(14_467), "14.5");
        assert_eq!(seconds(999_901), "1,000.0");
        assert_eq!(seconds(1_686_000), "1,686.0");
    }
}
