//! What numbers are called: modes, beacons, answers.

use ems::{answer, Beacon, Mode};

/// A mode's name, or its number where there is no such mode.
pub fn mode(number: u8) -> String {
    Mode::of(number).map_or_else(|| format!("mode {number}"), |mode| mode.to_string())
}

/// The name of the beacon that is due, or its number where there is no such one.
pub fn beacon(number: u8) -> String {
    match Beacon::of(number) {
        Some(beacon) => beacon.to_string(),
        None if number == 0 => "no".to_string(),
        None => number.to_string(),
    }
}

/// An answer's number and name.
pub fn answer(number: u8) -> String {
    format!("{number} {}", row(number).0)
}

/// What an answer's number says.
pub fn meaning(number: u8) -> &'static str {
    row(number).1
}

/// Whether nobody can tell where the frame after a refused one begins.
pub fn loses_the_cut(refusal: u8) -> bool {
    matches!(refusal, answer::UNKNOWN_KIND | answer::BAD_LENGTH)
}

/// Whether it is for what a frame says that it is refused: then the board takes the next.
pub fn may_be_passed_over(refusal: u8) -> bool {
    matches!(refusal, answer::BAD_FIELD | answer::NOT_PERMITTED)
}

/// An answer's name and what it says; nothing where there is no such answer.
fn row(number: u8) -> (&'static str, &'static str) {
    match number {
        answer::DONE => ("done", "done by the rules"),
        answer::BAD_STATE => (
            "bad state",
            "the state is outside its ranges, or its masks and modules disagree",
        ),
        answer::SHORT_ROOM => ("short room", "there is no room for the report"),
        answer::NO_INPUT => ("no input", "there are no input bytes"),
        answer::UNKNOWN_KIND => (
            "unknown kind",
            "no frame that is read begins with this byte",
        ),
        answer::BAD_LENGTH => ("bad length", "the length is not the kind's total"),
        answer::BAD_FIELD => (
            "bad field",
            "a field is outside its range, or descend is above ascend",
        ),
        answer::NOT_PERMITTED => (
            "not permitted",
            "the payload asks for what only the ground may",
        ),
        answer::REPEAT => ("repeat", "the serial is the origin's last one"),
        answer::STALE => ("stale", "the serial lies behind the origin's last one"),
        answer::NOT_NOW => (
            "not now",
            "a mission module is switched on in SAFE only; the serial is used up",
        ),
        answer::TEXT_TOO_LONG => ("too long", "the text is too long"),
        answer::NOT_KEYABLE => ("not keyable", "a character is outside the alphabet"),
        answer::BAD_SPACE => ("bad space", "a space is first, last or doubled"),
        answer::NO_ROOM => ("no room", "the room is shorter than the result"),
        answer::NOT_A_KEYING => (
            "not a keying",
            "the units are not exactly the keying of a text",
        ),
        answer::OUT_OF_RANGE => (
            "out of range",
            "a reading, set point or step is out of range",
        ),
        answer::BOOKS_FULL => (
            "books full",
            "a number of the books is above 10 to the 15th, or this tick would take it above",
        ),
        answer::NOT_BOOKS => ("not books", "the books are not 24 numbers"),
        answer::NO_MESSAGE => ("no message", "no greeting is kept"),
        _ => ("", ""),
    }
}
