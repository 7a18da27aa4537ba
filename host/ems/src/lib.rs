//! The power-board supervisor for Rust: `include/ems.h` without the pointers.
//!
//! [`Craft`] keeps the image of a state in range and is what most programs
//! want. The functions of [`calls`] are the C calls as they stand, over slices
//! of any length, for tests and for callers that keep the image elsewhere.
//!
//! [`Report`] is what comes back, and [`Passed`] of a whole pass; [`Mode`],
//! [`Module`] and [`Beacon`] name a report's numbers. Answers are the numbers of
//! documents 01 and 02, named in [`answer`].
//!
//! [`Craft::step_books`] keeps each module's seconds in numbers of the caller, and
//! [`summary`] tells from them which share of its time each was on.
//!
//! [`track`] is the panel tracker, which goes by a panel's [`Reading`]s and has nothing
//! to do with a board's state.
//!
//! ```
//! use ems::{answer, Craft, Mode, Module, Passed};
//!
//! let mut craft = Craft::fresh();
//! // An order of the ground, number 1: MCS off.
//! let report = craft.report_on(&[0x04, 1, 0, 1, Module::Mcs.number(), 0]).expect("a report");
//! assert_eq!(Mode::of(report.mode), Some(Mode::DeployWait));
//! assert!(!Module::in_mask(report.requested).any(|module| module == Module::Mcs));
//! // A pass: the same again, a second, and half a frame.
//! let frames = [0x04, 1, 0, 1, 0, 0, 0x01, 0, 0x02, 0x1F];
//! let passed = craft.reports_on(&frames, Passed::room_for(&frames));
//! let answers: Vec<u8> = passed.reports.iter().map(|report| report.answer).collect();
//! assert_eq!(answers, [answer::REPEAT, answer::DONE]);
//! assert_eq!(passed.answer, answer::BAD_LENGTH);
//! ```

#![deny(missing_docs, unsafe_op_in_unsafe_fn)]

pub mod answer;
pub mod calls;
mod craft;
mod mode;
mod module;
mod passed;
mod reading;
mod report;

pub use calls::{key, read, summary, track};
pub use craft::Craft;
pub use mode::Mode;
pub use module::Module;
pub use passed::Passed;
pub use reading::{Reading, LONGEST_STEP, MOST_MILLIAMPERES, MOST_MILLIVOLTS};
pub use report::{Beacon, Report, REPORT_KIND};

/// The bytes of an image; `EMS_IMAGE_BYTES` of the header.
pub const IMAGE_BYTES: usize = 71;
/// The bytes of a report; `EMS_REPORT_BYTES` of the header.
pub const REPORT_BYTES: usize = 11;
/// The bytes of a basic beacon's text.
pub const BEACON_BASIC_BYTES: usize = 10;
/// The bytes of a complete beacon's text.
pub const BEACON_COMPLETE_BYTES: usize = 16;
/// The most bytes of an extended beacon's text.
pub const BEACON_EXTENDED_BYTES: usize = 33;
/// The bytes of a message's text, its filler included.
pub const MESSAGE_BYTES: usize = 16;
/// The numbers of the books: each module's seconds on, off and failed, one module after
/// the other; `EMS_BOOKS_NUMBERS` of the header.
pub const BOOKS_NUMBERS: usize = 24;
/// The most seconds that a number of the books may have; `EMS_MOST_SECONDS` of the header.
pub const MOST_SECONDS: u64 = 1_000_000_000_000_000;
/// The longest text that is keyed.
pub const TEXT_BYTES: usize = 64;
/// Room enough for the units of any text that is keyed.
pub const UNITS_BYTES: usize = units_for(TEXT_BYTES);

/// Room enough for the units of any text of so many characters, up to [`TEXT_BYTES`]; 0 for
/// none. `EMS_UNITS_FOR` of the header, which says why it is so much: in it [`key`] never
/// answers [`answer::NO_ROOM`] to such a text, and so many zeros take all of it.
///
/// ```
/// use ems::{answer, key, units_for};
///
/// // For five characters, whichever they are.
/// let mut units = [0; units_for(5)];
/// assert_eq!(key(b"PARIS", &mut units), (answer::DONE, 43));
/// assert_eq!(key(b"00000", &mut units), (answer::DONE, units.len()));
/// ```
pub const fn units_for(characters: usize) -> usize {
    characters.saturating_mul(22).saturating_sub(3)
}
