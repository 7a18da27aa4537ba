//! The two sides that are compared.

use model::track::Reading;

/// The calls of `include/ems.h` on one side.
#[derive(Clone, Copy)]
pub struct Calls {
    /// `ems_fresh`
    pub fresh: fn(&mut [u8]) -> u8,
    /// `ems_step`
    pub step: fn(&mut [u8], &[u8], &mut [u8]) -> u8,
    /// `ems_pass`
    pub pass: Pass,
    /// `ems_modules_on`, which counts and writes no bytes
    pub modules_on: Counted,
    /// `ems_step_books`
    pub step_books: StepBooks,
    /// `ems_summary`
    pub summary: Summary,
    /// `ems_beacon_basic`
    pub beacon_basic: Counted,
    /// `ems_beacon_complete`
    pub beacon_complete: Counted,
    /// `ems_beacon_extended`
    pub beacon_extended: Counted,
    /// `ems_key`
    pub key: Counted,
    /// `ems_read`
    pub read: Counted,
    /// `ems_track`
    pub track: Track,
}

/// A call that turns bytes into bytes and says how many.
pub type Counted = fn(&[u8], &mut [u8]) -> (u8, usize);

/// A call that takes frames end to end, and says how many got a report.
pub type Pass = fn(&mut [u8], &[u8], &mut [u8]) -> (u8, usize);

/// A call that takes one frame, and writes seconds into the books.
pub type StepBooks = fn(&mut [u8], &[u8], &mut [u8], &mut [u64]) -> u8;

/// A call that makes shares of the books.
pub type Summary = fn(&[u64], &mut [u16]) -> u8;

/// A call that moves a panel's set point, by the readings before and after the last move.
pub type Track = fn(Reading, Reading, &mut u32, &mut i32) -> u8;

/// The compiled library.
pub const LIBRARY: Calls = Calls {
    fresh: ems::calls::fresh,
    step: ems::calls::step,
    pass: ems::calls::pass,
    modules_on: |image, _| ems::calls::modules_on(image),
    step_books: ems::calls::step_books,
    summary: ems::calls::summary,
    beacon_basic: ems::calls::beacon_basic,
    beacon_complete: ems::calls::beacon_complete,
    beacon_extended: ems::calls::beacon_extended,
    key: ems::calls::key,
    read: ems::calls::read,
    track: |before, after, set_point, step| {
        let [before, after] = [before, after].map(|reading| ems::Reading {
            millivolts: reading.millivolts,
            milliamperes: reading.milliamperes,
        });
        ems::calls::track(before, after, set_point, step)
    },
};

/// The model.
pub const MODEL: Calls = Calls {
    fresh: model::calls::fresh,
    step: model::calls::step,
    pass: model::calls::pass,
    modules_on: |image, _| model::calls::modules_on(image),
    step_books: model::calls::step_books,
    summary: model::calls::summary,
    beacon_basic: model::calls::beacon_basic,
    beacon_complete: model::calls::beacon_complete,
    beacon_extended: model::calls::beacon_extended,
    key: model::calls::key,
    read: model::calls::read,
    track: model::calls::track,
};
