//! The cases of `track.txt`: a call of the panel tracker.

use crate::{read, text, Case, Line, Result};
use std::str::FromStr;

/// All cases of the file.
pub fn cases() -> Result<Vec<Case>> {
    read(&text("track.txt")?, &["track"])
}

/// Volts and amps, in millivolts and milliamperes.
pub type Reading = [u32; 2];

/// Makes the call of a case, by the readings before and after the move, the set point and
/// the step: what came out otherwise, if it did.
pub fn check(
    case: &Case,
    track: impl Fn(Reading, Reading, &mut u32, &mut i32) -> u8,
) -> Result<()> {
    let line = case.one("track")?;
    let values: Vec<&str> = line.values.iter().map(String::as_str).collect();
    let Some((numbers, ["=", answer, next_set_point, next_step])) = values.split_at_checked(6)
    else {
        return Err(line.wrong("six numbers, `=` and three"));
    };
    let before = [number(line, numbers[0])?, number(line, numbers[1])?];
    let after = [number(line, numbers[2])?, number(line, numbers[3])?];
    let (mut set_point, mut step) = (number(line, numbers[4])?, number(line, numbers[5])?);
    let wanted: (u8, u32, i32) = (
        number(line, answer)?,
        number(line, next_set_point)?,
        number(line, next_step)?,
    );
    let answer = track(before, after, &mut set_point, &mut step);
    let given = (answer, set_point, step);
    match given == wanted {
        true => Ok(()),
        false => Err(format!("line {}: {given:?}", line.number)),
    }
}

/// A value of a line as a number.
fn number<T: FromStr>(line: &Line, value: &str) -> Result<T> {
    value.parse().map_err(|_| line.wrong("numbers"))
}
