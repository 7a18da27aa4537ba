//! One call made on both sides, and all that it leaves behind compared: the
//! answer, the count, and every byte of the buffers, also those past the
//! lengths that the call was given, or beside its numbers. [`books`] has the calls that
//! are lent books.

pub mod books;

use crate::shrink::Move;
use crate::sides::{Calls, Counted};
use model::frame;
use model::report::{self, Report};
use model::track::Reading;
use std::fmt::{self, Write};

/// The longest image and reply room that a step is given.
pub const LONGEST: usize = 80;
/// The longest reply room that a pass is given, with some bytes behind it.
pub const REPLIES: usize = 200;
/// The longest room that a text or units are given.
pub const WIDEST: usize = 1_500;

/// What stands in a buffer before a call.
const fn noise<const N: usize>(salt: u32) -> [u8; N] {
    let mut bytes = [0; N];
    let mut x = salt;
    let mut i = 0;
    while i < N {
        x = x.wrapping_mul(1_664_525).wrapping_add(1_013_904_223);
        bytes[i] = (x >> 24) as u8;
        i += 1;
    }
    bytes
}

static BEYOND_IMAGE: [u8; LONGEST] = noise(1);
static ROOM: [u8; LONGEST] = noise(2);
static WIDE_ROOM: [u8; WIDEST] = noise(3);
static PASS_ROOM: [u8; REPLIES] = noise(4);

/// What both sides leave behind, or the two outcomes where they differ.
pub type Both<T> = Result<T, Box<[T; 2]>>;

fn agree<T: PartialEq>([library, model]: [T; 2]) -> Both<T> {
    if library == model {
        Ok(model)
    } else {
        Err(Box::new([library, model]))
    }
}

/// What a step leaves behind.
#[derive(Clone, PartialEq, Eq)]
pub struct Stepped {
    /// The answer.
    pub answer: u8,
    image: [u8; LONGEST],
    image_len: usize,
    room: [u8; LONGEST],
}

impl Stepped {
    /// Before a step: an image, and a room that nobody has written to.
    fn before(image: &[u8]) -> Stepped {
        let mut before = Stepped {
            answer: 0,
            image: BEYOND_IMAGE,
            image_len: image.len(),
            room: ROOM,
        };
        before.image[..image.len()].copy_from_slice(image);
        before
    }

    /// The image after the step.
    pub fn image(&self) -> &[u8] {
        &self.image[..self.image_len]
    }

    /// The report, if the step has left one.
    pub fn report(&self) -> Option<Report> {
        let bytes = self.room.first_chunk()?;
        has_report(self.answer).then(|| Report::from_bytes(bytes))
    }
}

/// Whether a step that gave this answer has left a report.
fn has_report(answer: u8) -> bool {
    matches!(answer, 0 | 8..=10)
}

impl fmt::Display for Stepped {
    fn fmt(&self, f: &mut fmt::Formatter) -> fmt::Result {
        let image = told_image(&self.image, self.image_len);
        write!(f, "answer {}, {image}", self.answer)?;
        write!(f, ", room {}", hex(&self.room))
    }
}

/// An image of a length, and whether the bytes past it are as they were.
fn told_image(image: &[u8; LONGEST], length: usize) -> String {
    let (inside, past) = image.split_at(length);
    let whole = past == &BEYOND_IMAGE[length..];
    let past = if whole { "kept" } else { "WRITTEN" };
    format!("image {}, past it {past}", hex(inside))
}

/// Makes a step on one side.
fn stepped(calls: &Calls, image: &[u8], frame: &[u8], room: usize) -> Stepped {
    let mut after = Stepped::before(image);
    let own = &mut after.image[..image.len()];
    after.answer = (calls.step)(own, frame, &mut after.room[..room]);
    after
}

/// Makes a step on both sides.
pub fn step(sides: &[Calls; 2], image: &[u8], frame: &[u8], room: usize) -> Both<Stepped> {
    agree(sides.map(|calls| stepped(&calls, image, frame, room)))
}

/// What a pass leaves behind.
#[derive(Clone, PartialEq, Eq)]
pub struct Passed {
    /// Why it stopped.
    pub answer: u8,
    /// How many frames got a report.
    pub reported: usize,
    image: [u8; LONGEST],
    image_len: usize,
    room: [u8; REPLIES],
}

impl fmt::Display for Passed {
    fn fmt(&self, f: &mut fmt::Formatter) -> fmt::Result {
        let image = told_image(&self.image, self.image_len);
        write!(f, "answer {}, reported {}", self.answer, self.reported)?;
        write!(f, ", {image}, room {}", hex(&self.room))
    }
}

impl Passed {
    /// Before any frame: an image, and a room that nobody has written to.
    fn before(image: &[u8]) -> Passed {
        let mut before = Passed {
            answer: 0,
            reported: 0,
            image: BEYOND_IMAGE,
            image_len: image.len(),
            room: PASS_ROOM,
        };
        before.image[..image.len()].copy_from_slice(image);
        before
    }

    /// Goes on from here with a pass, up to this end of the room.
    fn pass(&mut self, calls: &Calls, frames: &[u8], room: usize) {
        let written = report::BYTES * self.reported;
        let image = &mut self.image[..self.image_len];
        let (answer, reported) = (calls.pass)(image, frames, &mut self.room[written..room]);
        self.answer = answer;
        // A count that nobody wrote must not wrap.
        self.reported = self.reported.saturating_add(reported);
    }

    /// Goes on from here with a single step: whether it leaves a report.
    fn step(&mut self, calls: &Calls, frame: &[u8], room: usize) -> bool {
        let written = report::BYTES * self.reported;
        let image = &mut self.image[..self.image_len];
        let answer = (calls.step)(image, frame, &mut self.room[written..room]);
        match has_report(answer) {
            true => self.reported += 1,
            false => self.answer = answer,
        }
        has_report(answer)
    }
}

/// Makes a pass on one side.
pub fn passed(calls: &Calls, image: &[u8], frames: &[u8], room: usize) -> Passed {
    let mut after = Passed::before(image);
    after.pass(calls, frames, room);
    after
}

/// Makes a pass on both sides.
pub fn pass(sides: &[Calls; 2], image: &[u8], frames: &[u8], room: usize) -> Both<Passed> {
    agree(sides.map(|calls| passed(&calls, image, frames, room)))
}

/// The same by single steps in order, for an image in range.
fn one_by_one(calls: &Calls, image: &[u8], mut frames: &[u8], room: usize) -> Passed {
    let mut after = Passed::before(image);
    while !frames.is_empty() {
        let (frame, rest) = frame::cut(frames);
        if !after.step(calls, frame, room) {
            break;
        }
        frames = rest;
    }
    after
}

/// The same by two passes, the first of which has so many frames and does them all.
fn in_two(calls: &Calls, image: &[u8], frames: &[u8], room: usize, first: usize) -> Passed {
    let mut rest = frames;
    for _ in 0..first {
        rest = frame::cut(rest).1;
    }
    let mut after = Passed::before(image);
    after.pass(calls, &frames[..frames.len() - rest.len()], room);
    if (after.answer, after.reported) == (0, first) {
        after.pass(calls, rest, room);
    }
    after
}

/// Makes a pass on one side, for an image in range; then the same by single steps,
/// and in two passes, cut before and behind every frame that gets a report.
pub fn parts(calls: &Calls, image: &[u8], frames: &[u8], room: usize) -> Both<Passed> {
    let whole = passed(calls, image, frames, room);
    agree([whole.clone(), one_by_one(calls, image, frames, room)])?;
    // No more frames than the steps have found.
    for first in 0..=whole.reported {
        agree([whole.clone(), in_two(calls, image, frames, room, first)])?;
    }
    Ok(whole)
}

/// What a counted call leaves behind.
#[derive(Clone, PartialEq, Eq)]
pub struct Written {
    /// The answer.
    pub answer: u8,
    /// The count.
    pub count: usize,
    room: [u8; WIDEST],
}

impl Written {
    /// The bytes that were written.
    pub fn bytes(&self) -> &[u8] {
        &self.room[..self.count.min(WIDEST)]
    }
}

impl fmt::Display for Written {
    fn fmt(&self, f: &mut fmt::Formatter) -> fmt::Result {
        let mut changed = (0..WIDEST).filter(|&i| self.room[i] != WIDE_ROOM[i]);
        let last = changed.next_back().map_or(0, |i| i + 1);
        write!(f, "answer {}, count {}", self.answer, self.count)?;
        write!(
            f,
            ", room up to its last change {}",
            hex(&self.room[..last])
        )
    }
}

/// Makes a counted call on both sides.
pub fn counted(
    sides: &[Calls; 2],
    call: fn(&Calls) -> Counted,
    input: &[u8],
    room: usize,
) -> Both<Written> {
    agree(sides.map(|calls| {
        let mut after = Written {
            answer: 0,
            count: 0,
            room: WIDE_ROOM,
        };
        (after.answer, after.count) = call(&calls)(input, &mut after.room[..room]);
        after
    }))
}

/// What a call of the tracker leaves behind: its two numbers, each between two others.
#[derive(Clone, PartialEq, Eq)]
pub struct Tracked {
    /// The answer.
    pub answer: u8,
    set_point: [u32; 3],
    step: [i32; 3],
}

/// What stands beside the tracker's numbers.
const BESIDE: i32 = 0x5A5A_A5A5;

impl Tracked {
    /// The set point after the call.
    pub fn set_point(&self) -> u32 {
        self.set_point[1]
    }

    /// The step after the call.
    pub fn step(&self) -> i32 {
        self.step[1]
    }
}

impl fmt::Display for Tracked {
    fn fmt(&self, f: &mut fmt::Formatter) -> fmt::Result {
        let beside = [
            self.set_point[0] as i32,
            self.set_point[2] as i32,
            self.step[0],
            self.step[2],
        ];
        let whole = beside == [BESIDE; 4];
        let beside = if whole { "kept" } else { "WRITTEN" };
        write!(f, "answer {}, set point {}", self.answer, self.set_point())?;
        write!(f, ", step {}, beside them {beside}", self.step())
    }
}

/// Makes a call of the tracker on both sides.
pub fn track(sides: &[Calls; 2], (before, after, set_point, step): Move) -> Both<Tracked> {
    let [before, after] = [before, after].map(|(millivolts, milliamperes)| Reading {
        millivolts,
        milliamperes,
    });
    agree(sides.map(|calls| {
        let mut tracked = Tracked {
            answer: 0,
            set_point: [BESIDE as u32, set_point, BESIDE as u32],
            step: [BESIDE, step, BESIDE],
        };
        let Tracked {
            set_point: [_, set_point, _],
            step: [_, step, _],
            ..
        } = &mut tracked;
        let answer = (calls.track)(before, after, set_point, step);
        Tracked { answer, ..tracked }
    }))
}

/// Bytes in hex, as the page writes them.
pub fn hex(bytes: &[u8]) -> String {
    let mut text = String::new();
    for (i, byte) in bytes.iter().enumerate() {
        let space = if i == 0 { "" } else { " " };
        // Writing to a string can't fail.
        let _ = write!(text, "{space}{byte:02X}");
    }
    text
}
