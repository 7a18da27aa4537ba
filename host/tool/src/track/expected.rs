//! What may stand at a place of a curve's file.

use super::line::HEAD;
use crate::words::thousands;
use std::fmt;

#[derive(Clone, Copy, Debug)]
pub enum Expected {
    Text,
    Head,
    /// A row after the head line.
    Row,
    Millivolts,
    Milliamperes,
    Comma,
    End,
    /// The first row's voltage.
    FromZero,
    /// More than the row before has.
    MoreThan(u32),
    /// The last row's current.
    ToZero,
}

impl fmt::Display for Expected {
    fn fmt(&self, f: &mut fmt::Formatter<'_>) -> fmt::Result {
        let [volts, amperes] = HEAD;
        let numbers = format!("a number 0 to {}", thousands(u64::from(u32::MAX)));
        match self {
            Expected::Text => f.write_str("expected text in UTF-8"),
            Expected::Head => write!(f, "expected the head line: {volts},{amperes}"),
            Expected::Row => write!(f, "expected a row: {volts},{amperes}"),
            Expected::Millivolts => write!(f, "expected {volts}: {numbers}"),
            Expected::Milliamperes => {
                write!(f, "expected {amperes}: {numbers}, as in 459.5")
            }
            Expected::Comma => write!(f, "expected a comma and {amperes}"),
            Expected::End => f.write_str("expected the end of the line"),
            Expected::FromZero => write!(f, "expected 0: the first row has the current at 0 mV"),
            Expected::MoreThan(before) => {
                let before = thousands(u64::from(*before));
                write!(f, "expected more {volts} than in the row before, {before}")
            }
            Expected::ToZero => {
                f.write_str("expected 0: at the last row's voltage no current flows any more")
            }
        }
    }
}
