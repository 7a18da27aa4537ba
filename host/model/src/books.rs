//! Seconds in the books: each module's time on, off and failed, in numbers that the
//! caller lends; and its share on.

use crate::report::Report;
use crate::state::{Power, State};
use crate::step;
use crate::table::{MODULES, TICK};

/// The numbers of the books: three for each module, 3m, 3m + 1 and 3m + 2.
pub const NUMBERS: usize = 24;
/// The most that a number may be.
pub const MOST_SECONDS: u64 = 1_000_000_000_000_000;

/// All numbers of the books.
pub type Books = [u64; NUMBERS];

/// Takes one frame with the books, with so many bytes of reply room: the refusal, or the
/// report. A refusal leaves the state and the books as they are.
pub fn step(state: &mut State, input: &[u8], room: usize, books: &mut Books) -> Result<Report, u8> {
    let mut next = state.clone();
    let stepped = step::step(&mut next, input, room);
    if let Err(1..=6) = stepped {
        return stepped;
    }
    if above(books) {
        return Err(17);
    }
    let report = stepped?;
    let mut written = *books;
    if report.kind == TICK {
        write(&mut written, &next);
    }
    if above(&written) {
        return Err(17);
    }
    *state = next;
    *books = written;
    Ok(report)
}

/// Whether any number is above the most.
fn above(books: &Books) -> bool {
    books.iter().any(|&number| number > MOST_SECONDS)
}

/// Writes a second of each module, as it is found.
fn write(books: &mut Books, found: &State) {
    for (module, row) in found.modules.iter().zip(&MODULES) {
        let column = match module.power {
            Power::On { .. } => 0,
            Power::Off(_) => 1,
            Power::Failed(_) => 2,
        };
        books[3 * usize::from(row.number) + column] += 1;
    }
}

/// Each module's share on, in thousandths of its three numbers together; or the refusal.
pub fn shares(books: &[u64]) -> Result<[u16; 8], u8> {
    let books: &Books = books.try_into().map_err(|_| 18)?;
    if above(books) {
        return Err(17);
    }
    Ok(MODULES.map(|row| {
        let first = 3 * usize::from(row.number);
        share(books[first], books[first + 1], books[first + 2])
    }))
}

/// The share of the seconds on, rounded down; 0 where all are 0.
fn share(on: u64, off: u64, failed: u64) -> u16 {
    let thousandths = (1_000 * on).checked_div(on + off + failed);
    thousandths.unwrap_or(0) as u16
}
