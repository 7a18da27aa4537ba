//! The calls that are lent books, made on both sides: what they leave, with the numbers
//! behind those that were lent.

use super::{agree, stepped, Both, Stepped};
use crate::sides::Calls;
use model::report::Report;
use std::fmt;

/// The most numbers that a call is lent; there are some behind them.
pub const MOST_LENT: usize = 30;
/// The most shares that a call is lent; there are some behind them.
pub const MOST_SHARES: usize = 10;

/// What stands in the numbers and shares before a call.
const BEFORE: u64 = 0x5A5A_A5A5_3C3C_C3C3;

/// What a step with books leaves behind.
#[derive(Clone, PartialEq, Eq)]
pub struct Entered {
    stepped: Stepped,
    books: [u64; MOST_LENT + 2],
    lent: usize,
}

impl Entered {
    /// What a call leaves that moves nothing, with its answer.
    pub fn still(image: &[u8], books: &[u64], answer: u8) -> Entered {
        let stepped = Stepped::before(image);
        Entered::of(Stepped { answer, ..stepped }, books)
    }

    /// What one leaves that moves no number, by what a step without books leaves.
    pub fn without(
        calls: &Calls,
        image: &[u8],
        frame: &[u8],
        room: usize,
        books: &[u64],
    ) -> Entered {
        Entered::of(stepped(calls, image, frame, room), books)
    }

    fn of(stepped: Stepped, books: &[u64]) -> Entered {
        let mut entered = Entered {
            stepped,
            books: [BEFORE; MOST_LENT + 2],
            lent: books.len(),
        };
        entered.books_mut().copy_from_slice(books);
        entered
    }

    /// The answer.
    pub fn answer(&self) -> u8 {
        self.stepped.answer
    }

    /// The image after the step.
    pub fn image(&self) -> &[u8] {
        self.stepped.image()
    }

    /// The report, if the step has left one.
    pub fn report(&self) -> Option<Report> {
        self.stepped.report()
    }

    /// The books after the step.
    pub fn books(&self) -> &[u64] {
        &self.books[..self.lent]
    }

    /// The books after the step, to be written to.
    pub fn books_mut(&mut self) -> &mut [u64] {
        &mut self.books[..self.lent]
    }
}

impl fmt::Display for Entered {
    fn fmt(&self, f: &mut fmt::Formatter) -> fmt::Result {
        let (books, past) = self.books.split_at(self.lent);
        let whole = past.iter().all(|number| *number == BEFORE);
        let past = if whole { "kept" } else { "WRITTEN" };
        write!(f, "{}, books {books:?}, past them {past}", self.stepped)
    }
}

/// Makes a step with books on both sides.
pub fn step(
    sides: &[Calls; 2],
    image: &[u8],
    frame: &[u8],
    room: usize,
    books: &[u64],
) -> Both<Entered> {
    agree(sides.map(|calls| {
        let mut after = Entered::still(image, books, 0);
        let Entered {
            stepped,
            books: own,
            lent,
        } = &mut after;
        stepped.answer = (calls.step_books)(
            &mut stepped.image[..image.len()],
            frame,
            &mut stepped.room[..room],
            &mut own[..*lent],
        );
        after
    }))
}

/// What a summary leaves behind.
#[derive(Clone, PartialEq, Eq)]
pub struct Summed {
    /// The answer.
    pub answer: u8,
    shares: [u16; MOST_SHARES + 2],
}

impl Summed {
    /// What a call leaves that writes these shares to the front.
    pub fn of(answer: u8, shares: &[u16]) -> Summed {
        let mut summed = Summed {
            answer,
            shares: [BEFORE as u16; MOST_SHARES + 2],
        };
        summed.shares[..shares.len()].copy_from_slice(shares);
        summed
    }

    /// The first shares, so many.
    pub fn shares(&self, count: usize) -> &[u16] {
        &self.shares[..count]
    }
}

impl fmt::Display for Summed {
    fn fmt(&self, f: &mut fmt::Formatter) -> fmt::Result {
        write!(f, "answer {}, shares {:?}", self.answer, self.shares)
    }
}

/// Makes a summary on both sides, with so many shares lent.
pub fn summary(sides: &[Calls; 2], books: &[u64], lent: usize) -> Both<Summed> {
    agree(sides.map(|calls| {
        let mut after = Summed::of(0, &[]);
        after.answer = (calls.summary)(books, &mut after.shares[..lent]);
        after
    }))
}
