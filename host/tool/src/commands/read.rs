//! `ems read`: the text that units are the keying of.

use crate::args::Read;
use crate::failure::{Failure, REFUSED};
use crate::morse::{self, Unread};
use crate::output::Output;
use crate::source;
use crate::tables::meaning;
use crate::words::thousands;
use ems::{answer, TEXT_BYTES};
use std::io::Write;

pub fn run(read: &Read) -> Result<(), Failure> {
    let (name, text) = source::whole(&read.file)?;
    let units = units(&name, &text)?;
    let mut room = [0; TEXT_BYTES];
    let (given, count) = ems::read(&units, &mut room);
    if given != answer::DONE {
        return Err(refused(&name, &text, &units, given));
    }
    let mut output = Output::standard()?;
    output.write_all(&room[..count])?;
    output.write_all(b"\n")?;
    Ok(output.flush()?)
}

/// The digits of a text, blanks and line ends left out. Digits other than 0 and 1
/// are let through: the library refuses them.
fn units(name: &str, text: &[u8]) -> Result<Vec<u8>, Failure> {
    let mut units = Vec::new();
    for (at, byte) in text.iter().enumerate() {
        match byte {
            b'0'..=b'9' => units.push(byte - b'0'),
            byte if byte.is_ascii_whitespace() => {}
            _ => {
                let place = place(text, at);
                let message = format!("{name}:{place}: expected a unit: 1 or 0");
                return Err(Failure::usage(message));
            }
        }
    }
    Ok(units)
}

/// Line and column of a byte.
fn place(text: &[u8], at: usize) -> String {
    let before = &text[..at];
    let line = 1 + before.iter().filter(|&&byte| byte == b'\n').count();
    let begin = before.iter().rposition(|&byte| byte == b'\n');
    let column = at - begin.map_or(0, |begin| begin + 1) + 1;
    format!("{line}:{column}")
}

/// Why units are not read: the first that is wrong, and where it stands.
fn refused(name: &str, text: &[u8], units: &[u8], refusal: u8) -> Failure {
    let last = units.len().saturating_sub(1);
    let (unit, what) = match morse::unread(units) {
        Unread::TooEarly => (last, "they end too early, after"),
        Unread::Wrong(unit) => (unit, "no keying goes on with"),
        Unread::TooLong(unit) => (unit, "the text is too long from"),
    };
    let mut digits = (0..text.len()).filter(|&at| text[at].is_ascii_digit());
    let place = place(text, digits.nth(unit).unwrap_or(0));
    let (why, unit) = (meaning(refusal), thousands(unit as u64 + 1));
    let message =
        format!("{name}:{place}: the units are refused: {refusal}, {why}: {what} unit {unit}");
    Failure::new(REFUSED, message)
}
