//! Flights in the books: from zeros, and in books that fill up. What is in them is looked at
//! beside the reports.

use super::Verdict;
use crate::bookkeeping::{enter, raised};
use crate::books;
use crate::compare::books::Entered;
use crate::compare::{self, hex};
use crate::rng::Rng;
use crate::sides::Calls;
use model::books::{MOST_SECONDS, NUMBERS};
use model::table::TICK;

/// What the reports of a flight say that the books have.
struct History {
    numbers: [u64; NUMBERS],
    ticks: u64,
}

impl History {
    /// Before any report.
    fn new() -> History {
        History {
            numbers: [0; NUMBERS],
            ticks: 0,
        }
    }

    /// Adds what a call reports, if it does.
    fn add(&mut self, entered: &Entered) {
        let report = entered.report().filter(|report| report.kind == TICK);
        if let Some(report) = report {
            for number in raised(&report) {
                self.numbers[number] += 1;
            }
            self.ticks += 1;
        }
    }

    /// Whether these are the numbers, and each module's three add up to the ticks.
    fn tells(&self, books: &[u64]) -> bool {
        let whole = |three: &[u64]| three.iter().sum::<u64>() == self.ticks;
        books == self.numbers && books.chunks(3).all(whole)
    }
}

/// Flights from zeros: after every frame each number is the count of the ticks so far that
/// the reports tell of.
pub fn flights(sides: &[Calls; 2], rng: &mut Rng) -> Verdict {
    let mut made = 0;
    while made < 500_000 {
        let (mut image, shots) = books::flight(rng);
        let mut books = vec![0; NUMBERS];
        let mut history = History::new();
        for shot in shots {
            let (frame, room) = &shot;
            let stepped = compare::books::step(sides, &image, frame, usize::from(*room), &books);
            let entered = match stepped {
                Ok(entered) => entered,
                Err(_) => enter(sides, &image, shot.clone(), &books)?,
            };
            history.add(&entered);
            books = entered.books().to_vec();
            if !history.tells(&books) {
                return Err(format!(
                    "a flight from {}\n  {} (room {room})\nbooks {books:?}, and not {:?}",
                    hex(&image),
                    hex(frame),
                    history.numbers,
                ));
            }
            image = entered.image().to_vec();
            made += 1;
        }
    }
    Ok(made)
}

/// Flights in books that fill up, or have a number damaged now and then. At 17 they are put
/// away, others are begun, and the same frame is sent again: nothing is lost, neither of the
/// flight nor of the seconds.
pub fn full(sides: &[Calls; 2], rng: &mut Rng) -> Verdict {
    let mut made = 0;
    while made < 150_000 {
        let (mut image, shots) = books::flight(rng);
        let mut books = books::nearly_full(rng);
        let mut begun = books.clone();
        let mut away = vec![0; NUMBERS];
        let mut history = History::new();
        for shot in shots {
            if rng.once_in(20) {
                let place = rng.below(NUMBERS);
                let more = MOST_SECONDS + 1 - books[place];
                books[place] += more;
                begun[place] += more;
            }
            let mut entered = enter(sides, &image, shot.clone(), &books)?;
            while entered.answer() == 17 {
                add(&mut away, &books);
                books = match rng.once_in(2) {
                    true => vec![0; NUMBERS],
                    false => books::nearly_full(rng),
                };
                add(&mut begun, &books);
                entered = enter(sides, &image, shot.clone(), &books)?;
                made += 1;
            }
            history.add(&entered);
            books = entered.books().to_vec();
            image = entered.image().to_vec();
            made += 1;
        }
        add(&mut begun, &history.numbers);
        add(&mut away, &books);
        if begun != away {
            return Err(format!("begun and flown {begun:?}\nwritten {away:?}"));
        }
    }
    Ok(made)
}

/// Adds numbers to others, each to its own.
fn add(to: &mut [u64], numbers: &[u64]) {
    for (to, number) in to.iter_mut().zip(numbers) {
        *to += number;
    }
}
