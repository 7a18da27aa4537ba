//! One board: the image of a state in range, and what can be asked of it.

use crate::{answer, calls, Passed, Report, IMAGE_BYTES, REPORT_BYTES};

/// A board's state. It is always in range, so no call on it answers 1.
#[derive(Clone, Debug, PartialEq, Eq)]
pub struct Craft {
    image: [u8; IMAGE_BYTES],
}

impl Craft {
    /// The board as it is first switched on.
    pub fn fresh() -> Craft {
        let mut image = [0; IMAGE_BYTES];
        // The only refusal is for another length.
        calls::fresh(&mut image);
        Craft { image }
    }

    /// The board that an image was saved from; none if no board saves so.
    ///
    /// The library is asked how many modules are on: it has no other refusal than
    /// that the image isn't one.
    pub fn from_image(image: &[u8]) -> Option<Craft> {
        let image: &[u8; IMAGE_BYTES] = image.try_into().ok()?;
        match calls::modules_on(image) {
            (answer::DONE, _) => Some(Craft { image: *image }),
            _ => None,
        }
    }

    /// The board's image, to be kept.
    pub fn image(&self) -> &[u8; IMAGE_BYTES] {
        &self.image
    }

    /// Takes one frame and gives the answer; see [`answer::has_report`] for
    /// whether the first [`REPORT_BYTES`] of the room are a report.
    pub fn step(&mut self, frame: &[u8], room: &mut [u8]) -> u8 {
        calls::step(&mut self.image, frame, room)
    }

    /// Takes one frame, and gives its report or the number that it is refused
    /// with.
    pub fn report_on(&mut self, frame: &[u8]) -> Result<Report, u8> {
        let mut room = [0; REPORT_BYTES];
        let answer = self.step(frame, &mut room);
        Report::read(&room).ok_or(answer)
    }

    /// Takes a whole pass, frames end to end, and gives why it stopped and how
    /// many frames got a report; these stand end to end from the start of the
    /// room, [`REPORT_BYTES`] each.
    pub fn pass(&mut self, frames: &[u8], room: &mut [u8]) -> (u8, usize) {
        calls::pass(&mut self.image, frames, room)
    }

    /// Takes a whole pass with so many bytes of reply room, and gives the reports
    /// and why it stopped. [`Passed::room_for`] is room enough.
    pub fn reports_on(&mut self, frames: &[u8], room: usize) -> Passed {
        let mut room = vec![0; room.min(Passed::room_for(frames))];
        let (answer, reported) = self.pass(frames, &mut room);
        let reports = room.chunks(REPORT_BYTES).take(reported);
        Passed {
            reports: reports.filter_map(Report::read).collect(),
            answer,
        }
    }

    /// Takes one frame as [`step`](Craft::step) does, and writes each module's seconds on,
    /// off and failed into the caller's books, [`BOOKS_NUMBERS`](crate::BOOKS_NUMBERS)
    /// numbers that begin with zeros. [`answer::BOOKS_FULL`] leaves the craft and the books.
    pub fn step_books(&mut self, frame: &[u8], room: &mut [u8], books: &mut [u64]) -> u8 {
        calls::step_books(&mut self.image, frame, room, books)
    }

    /// How many modules are on.
    pub fn modules_on(&self) -> usize {
        let (_, count) = calls::modules_on(&self.image);
        count
    }

    /// Writes the basic beacon's text; answer and length.
    pub fn beacon_basic(&self, text: &mut [u8]) -> (u8, usize) {
        calls::beacon_basic(&self.image, text)
    }

    /// Writes the complete beacon's text; answer and length.
    pub fn beacon_complete(&self, text: &mut [u8]) -> (u8, usize) {
        calls::beacon_complete(&self.image, text)
    }

    /// Writes the extended beacon's text, if a message is kept; answer and length.
    pub fn beacon_extended(&self, text: &mut [u8]) -> (u8, usize) {
        calls::beacon_extended(&self.image, text)
    }
}
