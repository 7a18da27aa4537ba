//! The calls of `include/ems.h` over slices, and over numbers that are borrowed. All
//! `unsafe` of the workspace is in this file, in one shape.
//!
//! Why it is sound: the library reads and writes within the lengths it is given
//! and nowhere else (proved), keeps no pointer and no state between calls, and
//! asks five things of its caller. A slice's pointer is non-null, also when the
//! slice is empty, and aligned. A slice's length is true. A `&mut` slice overlaps nothing
//! else that is borrowed, and `count` or `reported` is a local of the wrapper.
//! And nobody else writes to what is borrowed while the call runs, which is what
//! a borrow means. Of a `&mut` number all of this holds too. Any bytes and numbers are
//! legal arguments, so nothing has to be checked first.

use crate::Reading;

mod c {
    extern "C" {
        pub fn ems_fresh(image: *mut u8, image_len: usize) -> u8;
        pub fn ems_step(
            image: *mut u8,
            image_len: usize,
            frame: *const u8,
            frame_len: usize,
            room: *mut u8,
            room_len: usize,
        ) -> u8;
        pub fn ems_pass(
            image: *mut u8,
            image_len: usize,
            frames: *const u8,
            frames_len: usize,
            room: *mut u8,
            room_len: usize,
            reported: *mut usize,
        ) -> u8;
        pub fn ems_modules_on(image: *const u8, image_len: usize, count: *mut usize) -> u8;
        pub fn ems_step_books(
            image: *mut u8,
            image_len: usize,
            frame: *const u8,
            frame_len: usize,
            room: *mut u8,
            room_len: usize,
            books: *mut u64,
            books_len: usize,
        ) -> u8;
        pub fn ems_summary(
            books: *const u64,
            books_len: usize,
            shares: *mut u16,
            shares_len: usize,
        ) -> u8;
        pub fn ems_beacon_basic(
            image: *const u8,
            image_len: usize,
            text: *mut u8,
            text_len: usize,
            count: *mut usize,
        ) -> u8;
        pub fn ems_beacon_complete(
            image: *const u8,
            image_len: usize,
            text: *mut u8,
            text_len: usize,
            count: *mut usize,
        ) -> u8;
        pub fn ems_beacon_extended(
            image: *const u8,
            image_len: usize,
            text: *mut u8,
            text_len: usize,
            count: *mut usize,
        ) -> u8;
        pub fn ems_key(
            text: *const u8,
            text_len: usize,
            units: *mut u8,
            units_len: usize,
            count: *mut usize,
        ) -> u8;
        pub fn ems_read(
            units: *const u8,
            units_len: usize,
            text: *mut u8,
            text_len: usize,
            count: *mut usize,
        ) -> u8;
        pub fn ems_track(
            volts_before: u32,
            amps_before: u32,
            volts_after: u32,
            amps_after: u32,
            set_point: *mut u32,
            step: *mut i32,
        ) -> u8;
    }
}

/// Five of the calls turn bytes into bytes, and say how many.
type Call = unsafe extern "C" fn(*const u8, usize, *mut u8, usize, *mut usize) -> u8;

/// Makes such a call; gives its answer and its count.
fn counted(call: Call, input: &[u8], room: &mut [u8]) -> (u8, usize) {
    // `count` is always written; this value would show if it weren't.
    let mut count = usize::MAX;
    // SAFETY: pointers and lengths are those of two borrowed slices and a local
    // (see the top of this file).
    let answer = unsafe {
        call(
            input.as_ptr(),
            input.len(),
            room.as_mut_ptr(),
            room.len(),
            &mut count,
        )
    };
    (answer, count)
}

/// Writes the image of the fresh start, if `image` has an image's length.
pub fn fresh(image: &mut [u8]) -> u8 {
    // SAFETY: pointer and length are those of one borrowed slice.
    unsafe { c::ems_fresh(image.as_mut_ptr(), image.len()) }
}

/// Takes one frame: the image becomes the next state's, the report goes to the
/// room.
pub fn step(image: &mut [u8], frame: &[u8], room: &mut [u8]) -> u8 {
    // SAFETY: pointers and lengths are those of three borrowed slices, the two
    // that are written borrowed mutably.
    unsafe {
        c::ems_step(
            image.as_mut_ptr(),
            image.len(),
            frame.as_ptr(),
            frame.len(),
            room.as_mut_ptr(),
            room.len(),
        )
    }
}

/// Takes a whole pass, frames end to end: the image becomes the state's after the
/// last frame that got a report, the reports go to the room. Why it stopped, and
/// how many frames got a report.
pub fn pass(image: &mut [u8], frames: &[u8], room: &mut [u8]) -> (u8, usize) {
    // `reported` is always written; this value would show if it weren't.
    let mut reported = usize::MAX;
    // SAFETY: pointers and lengths are those of three borrowed slices, the two
    // that are written borrowed mutably, and a local.
    let answer = unsafe {
        c::ems_pass(
            image.as_mut_ptr(),
            image.len(),
            frames.as_ptr(),
            frames.len(),
            room.as_mut_ptr(),
            room.len(),
            &mut reported,
        )
    };
    (answer, reported)
}

/// How many modules are on, from the ones in the on mask; answer and number.
pub fn modules_on(image: &[u8]) -> (u8, usize) {
    // `count` is always written; this value would show if it weren't.
    let mut count = usize::MAX;
    // SAFETY: pointers and length are those of one borrowed slice and a local.
    let answer = unsafe { c::ems_modules_on(image.as_ptr(), image.len(), &mut count) };
    (answer, count)
}

/// Takes one frame as [`step`] does, and writes each module's seconds on, off and failed
/// into the books: 18 unless [`BOOKS_NUMBERS`](crate::BOOKS_NUMBERS) numbers are lent,
/// and 17, between 6 and 7, where one has no more room.
pub fn step_books(image: &mut [u8], frame: &[u8], room: &mut [u8], books: &mut [u64]) -> u8 {
    // SAFETY: pointers and lengths are those of four borrowed slices, the three
    // that are written borrowed mutably.
    unsafe {
        c::ems_step_books(
            image.as_mut_ptr(),
            image.len(),
            frame.as_ptr(),
            frame.len(),
            room.as_mut_ptr(),
            room.len(),
            books.as_mut_ptr(),
            books.len(),
        )
    }
}

/// Writes each module's share on, in thousandths of its three numbers in the books: 18, 17
/// or, with too few shares lent, 14; else 0.
///
/// ```
/// use ems::{answer, summary, Module, BOOKS_NUMBERS};
///
/// let mut books = [0; BOOKS_NUMBERS];
/// // On for two seconds, off for one.
/// books[..3].copy_from_slice(&[2, 1, 0]);
/// let mut shares = Module::ALL.map(|_| 0);
/// assert_eq!(summary(&books, &mut shares), answer::DONE);
/// assert_eq!(shares, [666, 0, 0, 0, 0, 0, 0, 0]);
/// ```
pub fn summary(books: &[u64], shares: &mut [u16]) -> u8 {
    // SAFETY: pointers and lengths are those of two borrowed slices, the one that
    // is written borrowed mutably.
    unsafe {
        c::ems_summary(
            books.as_ptr(),
            books.len(),
            shares.as_mut_ptr(),
            shares.len(),
        )
    }
}

/// Writes the basic beacon's text of the state; answer and length.
pub fn beacon_basic(image: &[u8], text: &mut [u8]) -> (u8, usize) {
    counted(c::ems_beacon_basic, image, text)
}

/// Writes the complete beacon's text of the state; answer and length.
pub fn beacon_complete(image: &[u8], text: &mut [u8]) -> (u8, usize) {
    counted(c::ems_beacon_complete, image, text)
}

/// Writes the extended beacon's text of the state, if a message is kept; answer and
/// length.
pub fn beacon_extended(image: &[u8], text: &mut [u8]) -> (u8, usize) {
    counted(c::ems_beacon_extended, image, text)
}

/// Keys a text, one byte a unit; answer and number of units.
pub fn key(text: &[u8], units: &mut [u8]) -> (u8, usize) {
    counted(c::ems_key, text, units)
}

/// Reads units back to the text that they are the keying of; answer and length.
pub fn read(units: &[u8], text: &mut [u8]) -> (u8, usize) {
    counted(c::ems_read, units, text)
}

/// Moves a panel's set point towards the voltage at which the panel gives most, by its
/// readings before and after the last move: 0, or 16 with set point and step as they
/// were.
///
/// ```
/// use ems::{answer, track, Reading};
///
/// // A panel that gives most at 12,000 millivolts.
/// let measured = |millivolts: u32| Reading {
///     millivolts,
///     milliamperes: 14_000_u32.saturating_sub(millivolts).min(2_000),
/// };
/// let (mut set_point, mut step) = (9_000, 250);
/// // There was no move before the first: both readings are the same one.
/// let mut before = measured(set_point);
/// for _ in 0..100 {
///     let after = measured(set_point);
///     let answer = track(before, after, &mut set_point, &mut step);
///     assert_eq!(answer, answer::DONE);
///     before = after;
/// }
/// assert!(set_point.abs_diff(12_000) < 2 * step.unsigned_abs());
/// ```
pub fn track(before: Reading, after: Reading, set_point: &mut u32, step: &mut i32) -> u8 {
    // SAFETY: the pointers are those of two numbers borrowed mutably.
    unsafe {
        c::ems_track(
            before.millivolts,
            before.milliamperes,
            after.millivolts,
            after.milliamperes,
            set_point,
            step,
        )
    }
}
