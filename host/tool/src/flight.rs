//! A board and what is sent to it, up to the end or to a frame that is refused.

use crate::args;
use crate::board::{Board, Step};
use crate::failure::{Failure, REFUSED};
use crate::few::Few;
use crate::refusal::reason;
use crate::script::in_words;
use crate::stream::{Sent, Stream};
use crate::tables::{loses_the_cut, may_be_passed_over};
use crate::words::{count, thousands};

/// A flight that is under way.
pub struct Flight {
    pub board: Board,
    stream: Stream,
    /// Whether it goes on after a refusal, where the next frame is known.
    keep_going: bool,
    /// Whether a refusal has ended it.
    cut_off: bool,
    refusals: Few<String>,
}

impl Flight {
    /// One that ends with the first frame that is refused.
    pub fn open(flight: &args::Flight) -> Result<Flight, Failure> {
        Flight::going(flight, false)
    }

    /// One that goes on after a refusal if that is wanted.
    pub fn going(flight: &args::Flight, keep_going: bool) -> Result<Flight, Failure> {
        Ok(Flight {
            board: Board::fresh(),
            stream: Stream::open(flight)?,
            keep_going,
            cut_off: false,
            refusals: Few::new(),
        })
    }

    /// The same with another board than the fresh start's.
    pub fn with_board(self, board: Board) -> Flight {
        Flight { board, ..self }
    }

    /// Steps over the next frame; none where the flight has ended.
    pub fn step(&mut self) -> Result<Option<Step>, Failure> {
        self.step_by(|board, frame| board.step(frame))
    }

    /// The same with books, in which the board writes the modules' seconds.
    pub fn step_books(&mut self, books: &mut [u64]) -> Result<Option<Step>, Failure> {
        self.step_by(|board, frame| board.step_books(frame, books))
    }

    fn step_by(
        &mut self,
        call: impl FnOnce(&mut Board, &[u8]) -> Step,
    ) -> Result<Option<Step>, Failure> {
        if self.cut_off || !self.stream.advance()? {
            return Ok(None);
        }
        let step = call(&mut self.board, self.stream.frame());
        if let Err(refusal) = step.outcome {
            self.cut_off = !(self.keep_going && may_be_passed_over(refusal));
            let stream = &self.stream;
            let told = || refused(stream.name(), &stream.sent(step.n), refusal, stream.hint());
            self.refusals.add(told);
        }
        Ok(Some(step))
    }

    /// The frame of the last step.
    pub fn frame(&self) -> &[u8] {
        self.stream.frame()
    }

    /// That frame as a line of a script.
    pub fn sent(&self) -> String {
        in_words(self.frame())
    }

    /// The file's name, as it was given.
    pub fn name(&self) -> &str {
        self.stream.name()
    }

    /// Whether there is more that the board was not given.
    pub fn is_cut_off(&self) -> bool {
        self.cut_off
    }

    /// What to try where it is no flight at all, if it looks so.
    pub fn hint(&self) -> Option<String> {
        self.stream.hint()
    }

    /// The end: bad, if frames were refused.
    pub fn end(self) -> Result<(), Failure> {
        self.landed().map(|_| ())
    }

    /// The board that it ends with, if no frame was refused.
    pub fn landed(self) -> Result<Board, Failure> {
        if self.refusals.is_empty() {
            return Ok(self.board);
        }
        let mut messages = self.refusals.kept().to_vec();
        if self.refusals.more() > 0 {
            let more = count(self.refusals.more(), "more frame");
            messages.push(format!("{}: {more} refused", self.name()));
        }
        Err(Failure {
            status: REFUSED,
            messages,
        })
    }
}

/// What is said of a frame that was refused, and what may help where nobody knows
/// what follows it.
pub fn refused(name: &str, sent: &Sent, refusal: u8, hint: Option<String>) -> String {
    let Sent { n, place, frame } = sent;
    let (n, why, frame) = (thousands(*n), reason(frame, refusal), in_words(frame));
    let refused = format!("{name}, {place}: frame {n}, `{frame}`, is refused: {refusal}, {why}");
    match hint.filter(|_| loses_the_cut(refusal)) {
        Some(hint) => format!("{refused}; {hint}"),
        None => refused,
    }
}
