//! A board, one frame after the other or a whole pass at once. What it answers is
//! the library's word; this only counts frames and seconds, and remembers who has
//! sent a number and what each timed order set.

use crate::image::Image;
use crate::tables::{origins, timed, TICK};
use ems::{answer, Beacon, Craft, Module, Report, BEACON_EXTENDED_BYTES, REPORT_BYTES};

/// A board, and how far its flight has come.
pub struct Board {
    craft: Craft,
    image: Image,
    frames: u64,
    seconds: u64,
    /// The origins that a number was taken from.
    numbered: Vec<u8>,
    times: Times,
}

/// The seconds that each module's end was last set to.
#[derive(Clone, Copy, Default)]
pub struct Times([u32; Module::ALL.len()]);

impl Times {
    pub fn of(&self, module: Module) -> u32 {
        self.0[usize::from(module.number())]
    }

    fn set(&mut self, module: Module, seconds: u32) {
        self.0[usize::from(module.number())] = seconds;
    }
}

/// One frame's passing.
pub struct Step {
    /// The frame's number, from 1.
    pub n: u64,
    /// Seconds since the start, this frame included if it is a tick.
    pub seconds: u64,
    pub before: Image,
    pub after: Image,
    /// Whether the board had taken a number from this frame's origin before.
    pub numbered: bool,
    /// What the modules' ends were set to, by this frame or before it.
    pub times: Times,
    /// The report, or the refusal's number.
    pub outcome: Result<Report, u8>,
}

impl Step {
    /// Whether a second has passed.
    pub fn is_tick(&self) -> bool {
        self.outcome.is_ok_and(|report| report.kind == TICK)
    }
}

/// What one call gives for a whole pass.
pub struct Passed {
    /// Why it stopped.
    pub answer: u8,
    /// How many frames have a report.
    pub reported: usize,
    /// The reports, in their order.
    pub reports: Vec<Report>,
    /// The board after it.
    pub image: Image,
    /// How many modules it then has on.
    pub modules_on: usize,
}

impl Board {
    pub fn fresh() -> Board {
        Board::of(Craft::fresh())
    }

    /// A board of which no more is known than its state. An origin whose number is
    /// not the one that a board begins with has sent one, and an end has as many
    /// seconds as are left of it.
    pub fn of(craft: Craft) -> Board {
        let (image, fresh) = (Image::of(craft.image()), Image::of(Craft::fresh().image()));
        let has_sent = |origin: &u8| image.serial(*origin) != fresh.serial(*origin);
        let mut times = Times::default();
        for module in Module::ALL {
            times.set(module, image.end(module));
        }
        Board {
            image,
            craft,
            frames: 0,
            seconds: 0,
            numbered: origins().filter(has_sent).collect(),
            times,
        }
    }

    /// The same board, with its frames and seconds counted from here on.
    pub fn counted_anew(self) -> Board {
        Board {
            frames: 0,
            seconds: 0,
            ..self
        }
    }

    /// What comes of a whole pass in one call, with so many bytes of room. The board
    /// itself stays as it is.
    pub fn pass(&self, frames: &[u8], room: usize) -> Passed {
        let mut craft = self.craft.clone();
        let mut room = vec![0; room];
        let (answer, reported) = craft.pass(frames, &mut room);
        let reports = room.chunks_exact(REPORT_BYTES).take(reported);
        Passed {
            answer,
            reported,
            reports: reports.filter_map(Report::read).collect(),
            image: Image::of(craft.image()),
            modules_on: craft.modules_on(),
        }
    }

    /// Gives the board one frame.
    pub fn step(&mut self, frame: &[u8]) -> Step {
        let outcome = self.craft.report_on(frame);
        self.stepped(frame, outcome)
    }

    /// The same with books, in which the board writes the modules' seconds.
    pub fn step_books(&mut self, frame: &[u8], books: &mut [u64]) -> Step {
        let mut room = [0; REPORT_BYTES];
        let answer = self.craft.step_books(frame, &mut room, books);
        self.stepped(frame, Report::read(&room).ok_or(answer))
    }

    /// Takes down what came of a frame.
    fn stepped(&mut self, frame: &[u8], outcome: Result<Report, u8>) -> Step {
        let before = self.image;
        self.image = Image::of(self.craft.image());
        self.frames += 1;
        self.seconds += u64::from(outcome.is_ok_and(|report| report.kind == TICK));
        let done = outcome.is_ok_and(|report| report.answer == answer::DONE);
        if let Some(module) = timed(frame).filter(|_| done) {
            self.times.set(module, self.image.end(module));
        }
        Step {
            n: self.frames,
            seconds: self.seconds,
            before,
            after: self.image,
            numbered: outcome.is_ok_and(|report| self.number(&report)),
            times: self.times,
            outcome,
        }
    }

    /// Whether a number was taken from a report's origin before; it is now, if
    /// the answer says so.
    fn number(&mut self, report: &Report) -> bool {
        let before = self.numbered.contains(&report.origin);
        let taken = matches!(report.answer, answer::DONE | answer::NOT_NOW);
        if report.origin != 0 && taken && !before {
            self.numbered.push(report.origin);
        }
        before
    }

    pub fn image(&self) -> Image {
        self.image
    }

    /// How many modules are on.
    pub fn modules_on(&self) -> usize {
        self.craft.modules_on()
    }

    /// A beacon's text, or the number that it is refused with. One that is due has a
    /// text.
    pub fn beacon(&self, which: Beacon) -> Result<String, u8> {
        let mut text = [0; BEACON_EXTENDED_BYTES];
        let (answer, length) = match which {
            Beacon::Basic => self.craft.beacon_basic(&mut text),
            Beacon::Complete => self.craft.beacon_complete(&mut text),
            Beacon::Extended => self.craft.beacon_extended(&mut text),
        };
        match answer {
            answer::DONE => Ok(String::from_utf8_lossy(&text[..length]).into_owned()),
            refusal => Err(refusal),
        }
    }
}
