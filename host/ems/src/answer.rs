//! The answers of the calls, by the names of `include/ems.h`.

/// Done by the rules.
pub const DONE: u8 = 0;
/// The image is not that of a state in range, or its masks and modules disagree.
pub const BAD_STATE: u8 = 1;
/// Fewer bytes of reply room than a report has.
pub const SHORT_ROOM: u8 = 2;
/// No input bytes.
pub const NO_INPUT: u8 = 3;
/// The kind is not one that is read.
pub const UNKNOWN_KIND: u8 = 4;
/// The input's length is not the kind's total.
pub const BAD_LENGTH: u8 = 5;
/// A field outside its range, descend above ascend, a timed order for one of the core
/// four, or a greeting whose text can't be keyed.
pub const BAD_FIELD: u8 = 6;
/// The payload asks for what only the ground may.
pub const NOT_PERMITTED: u8 = 7;
/// The serial is a repeat.
pub const REPEAT: u8 = 8;
/// The serial is stale.
pub const STALE: u8 = 9;
/// "On", timed or not, for one of the mission four outside SAFE; the serial is used
/// up.
pub const NOT_NOW: u8 = 10;
/// The text is over 64 bytes.
pub const TEXT_TOO_LONG: u8 = 11;
/// A byte outside the alphabet.
pub const NOT_KEYABLE: u8 = 12;
/// A space first, last or doubled.
pub const BAD_SPACE: u8 = 13;
/// The room is shorter than the result.
pub const NO_ROOM: u8 = 14;
/// The units are not exactly the keying of a text.
pub const NOT_A_KEYING: u8 = 15;
/// A panel's reading, the set point or the step is out of range.
pub const OUT_OF_RANGE: u8 = 16;
/// A number of the books is above [`MOST_SECONDS`](crate::MOST_SECONDS), or this tick
/// would take it above.
pub const BOOKS_FULL: u8 = 17;
/// Not exactly [`BOOKS_NUMBERS`](crate::BOOKS_NUMBERS) numbers are lent.
pub const NOT_BOOKS: u8 = 18;
/// No message is kept for the extended beacon.
pub const NO_MESSAGE: u8 = 21;

/// Whether a step that gave this answer has left a report in the room.
pub fn has_report(answer: u8) -> bool {
    matches!(answer, DONE | REPEAT | STALE | NOT_NOW)
}
