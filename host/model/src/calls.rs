//! The calls of `include/ems.h`, with the same arguments and the same answers.

use crate::track::{self, Reading};
use crate::{beacon, books, image, morse, pass, report::Report, state::State, step};

/// Writes the fresh start's image.
pub fn fresh(bytes: &mut [u8]) -> u8 {
    if bytes.len() != image::BYTES {
        return 1;
    }
    bytes.copy_from_slice(&image::save(&State::fresh()));
    0
}

/// Takes one frame.
pub fn step(bytes: &mut [u8], frame: &[u8], room: &mut [u8]) -> u8 {
    let Some(mut state) = image::load(bytes) else {
        return 1;
    };
    let stepped = step::step(&mut state, frame, room.len());
    leave(stepped, &state, bytes, room)
}

/// Writes the state and the report that a frame leaves, if it leaves one: the answer.
fn leave(stepped: Result<Report, u8>, state: &State, bytes: &mut [u8], room: &mut [u8]) -> u8 {
    match stepped {
        Err(refusal) => refusal,
        Ok(report) => {
            bytes.copy_from_slice(&image::save(state));
            write(&report.bytes(), room);
            report.answer
        }
    }
}

/// Takes a whole pass: why it stopped, and how many frames got a report.
pub fn pass(bytes: &mut [u8], frames: &[u8], room: &mut [u8]) -> (u8, usize) {
    let Some(mut state) = image::load(bytes) else {
        return (1, 0);
    };
    let passed = pass::pass(&mut state, frames, room.len());
    bytes.copy_from_slice(&image::save(&state));
    let reports: Vec<u8> = passed.reports.iter().flat_map(Report::bytes).collect();
    write(&reports, room);
    (passed.answer, passed.reports.len())
}

/// How many modules are on.
pub fn modules_on(bytes: &[u8]) -> (u8, usize) {
    match image::load(bytes) {
        Some(state) => (0, state.masks.modules_on()),
        None => (1, 0),
    }
}

/// Takes one frame, and writes the seconds of the modules into the books.
pub fn step_books(bytes: &mut [u8], frame: &[u8], room: &mut [u8], lent: &mut [u64]) -> u8 {
    let Ok(books) = lent.try_into() else {
        return 18;
    };
    let Some(mut state) = image::load(bytes) else {
        return 1;
    };
    let stepped = books::step(&mut state, frame, room.len(), books);
    leave(stepped, &state, bytes, room)
}

/// Each module's share on.
pub fn summary(books: &[u64], shares: &mut [u16]) -> u8 {
    match books::shares(books) {
        Err(refusal) => {
            write(&[0; 8], shares);
            refusal
        }
        Ok(own) if shares.len() < own.len() => 14,
        Ok(own) => {
            write(&own, shares);
            0
        }
    }
}

/// The basic beacon's text.
pub fn beacon_basic(bytes: &[u8], text: &mut [u8]) -> (u8, usize) {
    beacon(bytes, text, |state| Ok(beacon::basic(state)))
}

/// The complete beacon's text.
pub fn beacon_complete(bytes: &[u8], text: &mut [u8]) -> (u8, usize) {
    beacon(bytes, text, |state| Ok(beacon::complete(state)))
}

/// The extended beacon's text.
pub fn beacon_extended(bytes: &[u8], text: &mut [u8]) -> (u8, usize) {
    beacon(bytes, text, |state| beacon::extended(state).ok_or(21))
}

/// A text of a state, or why it can't be had.
type Say = fn(&State) -> Result<String, u8>;

fn beacon(bytes: &[u8], text: &mut [u8], say: Say) -> (u8, usize) {
    let said = image::load(bytes).ok_or(1).and_then(|state| say(&state));
    give(said.map(String::into_bytes), text)
}

/// Keys a text.
pub fn key(text: &[u8], units: &mut [u8]) -> (u8, usize) {
    give(morse::key(text), units)
}

/// Reads units back.
pub fn read(units: &[u8], text: &mut [u8]) -> (u8, usize) {
    give(morse::read(units), text)
}

/// Moves a panel's set point, by the readings before and after the last move.
pub fn track(before: Reading, after: Reading, set_point: &mut u32, step: &mut i32) -> u8 {
    match track::track(before, after, *set_point, *step) {
        Err(refusal) => refusal,
        Ok(next) => {
            (*set_point, *step) = next;
            0
        }
    }
}

/// Writes a result if there is room for it: answer and count.
fn give(result: Result<Vec<u8>, u8>, room: &mut [u8]) -> (u8, usize) {
    match result {
        Err(refusal) => (refusal, 0),
        Ok(bytes) if bytes.len() > room.len() => (14, 0),
        Ok(bytes) => {
            write(&bytes, room);
            (0, bytes.len())
        }
    }
}

/// Writes to the front of a room, as far as it goes.
fn write<T: Copy>(result: &[T], room: &mut [T]) {
    for (to, from) in room.iter_mut().zip(result) {
        *to = *from;
    }
}
