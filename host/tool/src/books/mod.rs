//! The books of a flight: each module's seconds on, off and failed. The board keeps them
//! and tells the shares; here they are lent to it, and read.

mod told;

pub use told::{table, told};

use crate::failure::{Failure, REFUSED};
use crate::flight::Flight;
use crate::tables::meaning;
use crate::words::{list, thousands};
use ems::{answer, Module, BOOKS_NUMBERS};

/// The numbers that a board writes.
pub type Numbers = [u64; BOOKS_NUMBERS];

/// Books, and the ticks that were done meanwhile.
pub struct Books {
    pub rows: [Row; Module::ALL.len()],
    pub ticks: u64,
}

/// A module's seconds, and its share on in thousandths of them.
#[derive(Clone, Copy, Debug, PartialEq, Eq)]
pub struct Row {
    pub module: Module,
    pub on: u64,
    pub off: u64,
    pub failed: u64,
    share: u16,
}

impl Row {
    /// Its seconds together.
    pub fn seconds(&self) -> u64 {
        self.on + self.off + self.failed
    }

    /// Its share on, for people.
    pub fn share(&self) -> String {
        format!("{}.{} %", self.share / 10, self.share % 10)
    }
}

impl Books {
    /// Flies to the end, or to a frame that ends the flight, and gives what the board has
    /// then added to the numbers.
    pub fn of(flight: &mut Flight, mut numbers: Numbers) -> Result<Books, Failure> {
        let mut ticks = 0;
        while let Some(step) = flight.step_books(&mut numbers)? {
            ticks += u64::from(step.is_tick());
        }
        Books::read(&numbers, ticks).map_err(|refusal| {
            let why = meaning(refusal);
            Failure::new(REFUSED, format!("the summary is refused: {refusal}, {why}"))
        })
    }

    /// The numbers, each module's with its share as the library tells it, or the number
    /// that it refuses them with.
    fn read(numbers: &Numbers, ticks: u64) -> Result<Books, u8> {
        let mut shares = Module::ALL.map(|_| 0);
        match ems::summary(numbers, &mut shares) {
            answer::DONE => {}
            refusal => return Err(refusal),
        }
        let rows = Module::ALL.map(|module| {
            let m = usize::from(module.number());
            Row {
                module,
                on: numbers[3 * m],
                off: numbers[3 * m + 1],
                failed: numbers[3 * m + 2],
                share: shares[m],
            }
        });
        Ok(Books { rows, ticks })
    }

    /// Whether each module's seconds add up to the ticks done, or whose don't. It is
    /// proved that they do, of books that began with zeros.
    pub fn adds_up(&self) -> Result<(), String> {
        let astray = self.rows.iter().filter(|row| row.seconds() != self.ticks);
        let astray: Vec<String> = astray
            .map(|row| format!("{}'s are {}", row.module, thousands(row.seconds())))
            .collect();
        match astray.is_empty() {
            true => Ok(()),
            false => Err(list(&astray)),
        }
    }
}

#[cfg(test)]
mod tests {
    use super::*;
    use crate::args;
    use ems::MOST_SECONDS;

    /// The night of the mission; its third frame is its first tick.
    fn dawn(keep_going: bool) -> Flight {
        let file = concat!(env!("CARGO_MANIFEST_DIR"), "/../../examples/dawn.pass").into();
        let kind = None;
        Flight::going(&args::Flight { file, kind }, keep_going).expect("a flight")
    }

    #[test]
    fn what_does_not_add_up_is_told() {
        let mut numbers = [0; BOOKS_NUMBERS];
        for off in numbers.iter_mut().skip(1).step_by(3) {
            *off = 1_000;
        }
        let books = Books::read(&numbers, 1_000).expect("books");
        assert_eq!(books.adds_up(), Ok(()));
        numbers[3 * 3] = 1;
        numbers[3 * 4 + 1] = 0;
        let books = Books::read(&numbers, 1_000).expect("books");
        let whose = "ADCS's are 1,001 and PAYLOAD's are 0";
        assert_eq!(books.adds_up(), Err(whose.to_string()));
        let last = format!(
            "\nTicks done: 1,000. That each module's seconds add up to that DOES NOT HOLD: {whose}.\n"
        );
        assert!(told(&books).ends_with(&last), "{}", told(&books));
    }

    /// The tick that would take a number above is refused, and that ends the flight, also
    /// one that goes on after other refusals.
    #[test]
    fn full_books_end_the_flight() {
        let mut numbers = [0; BOOKS_NUMBERS];
        numbers[3 + 1] = MOST_SECONDS;
        for keep_going in [false, true] {
            let mut flight = dawn(keep_going);
            let books = Books::of(&mut flight, numbers).expect("books");
            let rows = books.rows.map(|row| [row.on, row.off, row.failed]);
            assert_eq!((books.ticks, rows.as_flattened()), (0, &numbers[..]));
            let failure = flight.end().expect_err("a refused tick");
            let [message] = &failure.messages[..] else {
                panic!("{:?}", failure.messages);
            };
            assert_eq!(failure.status, REFUSED);
            assert!(
                message.ends_with(
                    ": frame 3, `tick`, is refused: 17, a number of the books is above \
                     10 to the 15th, or this tick would take it above"
                ),
                "{message}"
            );
        }
    }

    #[test]
    fn books_that_no_board_keeps_have_no_summary() {
        let mut numbers = [0; BOOKS_NUMBERS];
        numbers[BOOKS_NUMBERS - 1] = MOST_SECONDS + 1;
        let failure = Books::of(&mut dawn(true), numbers)
            .err()
            .expect("a failure");
        assert_eq!(failure.status, REFUSED);
        assert!(failure.messages[0].starts_with("the summary is refused: 17, a number "));
    }
}
