//! The cases of `books.txt`: frames taken with books, a call for each.

use crate::board::{has_report, BEFORE, BEHIND, REPORT};
use crate::{read, text, Board, Case, Result};

/// The words of the file.
const WORDS: [&str; 8] = [
    "from", "image", "books", "frames", "room", "answers", "report", "after",
];

/// All cases of the file.
pub fn cases() -> Result<Vec<Case>> {
    read(&text("books.txt")?, &WORDS)
}

/// `ems_step_books`
pub type StepBooks = fn(&mut [u8], &[u8], &mut [u8], &mut [u64]) -> u8;

/// The answers that the call without books never gives.
const OF_BOOKS: [u8; 2] = [17, 18];
/// A number that stands behind the books.
const BEYOND: u64 = 0xA5A5;

/// What a call leaves: its answer, the image, the room and what lies behind it.
#[derive(Clone, Debug, PartialEq, Eq)]
struct Left {
    answer: u8,
    image: Vec<u8>,
    room: Vec<u8>,
}

impl Left {
    /// What a call leaves of an image and so many bytes of room.
    fn by(image: &[u8], room: usize, call: impl FnOnce(&mut [u8], &mut [u8]) -> u8) -> Left {
        let mut left = Left::before(image, room, 0);
        left.answer = call(&mut left.image, &mut left.room[..room]);
        left
    }

    /// What one leaves that moves nothing.
    fn before(image: &[u8], room: usize, answer: u8) -> Left {
        Left {
            answer,
            image: image.to_vec(),
            room: vec![BEFORE; room + BEHIND],
        }
    }
}

/// Makes the calls of a case: what came out otherwise, if anything did.
pub fn check(case: &Case, board: &Board, step_books: StepBooks) -> Result<()> {
    let differs = |what: String| Err(format!("case at line {}: {what}", case.place()));
    let mut image = board.start(case)?;
    let room = case.one("room")?.number()?;
    let mut books: Vec<u64> = case.one("books")?.numbers()?;
    let lent = books.len();
    books.push(BEYOND);
    let mut frames = case.one("frames")?.frames()?;
    if frames.is_empty() {
        frames.push(Vec::new());
    }
    let answers: Vec<u8> = case.one("answers")?.numbers()?;
    if answers.len() != frames.len() {
        return Err(case.one("answers")?.wrong("one for each frame"));
    }
    let mut report = Vec::new();
    for (frame, answer) in frames.iter().zip(answers) {
        let given = Left::by(&image, room, |image, room| {
            step_books(image, frame, room, &mut books[..lent])
        });
        if given.answer != answer {
            return differs(format!("answer {}", given.answer));
        }
        let wanted = match OF_BOOKS.contains(&answer) {
            true => Left::before(&image, room, answer),
            false => Left::by(&image, room, |image, room| (board.step)(image, frame, room)),
        };
        if given != wanted {
            return differs(format!("not as it should be: {given:02X?}"));
        }
        report = match has_report(answer) {
            true => given.room[..REPORT].to_vec(),
            false => Vec::new(),
        };
        image = given.image;
    }
    if report != case.one("report")?.bytes()? {
        return differs(format!("report {report:02X?}"));
    }
    let mut after: Vec<u64> = case.one("after")?.numbers()?;
    after.push(BEYOND);
    match books == after {
        true => Ok(()),
        false => differs(format!("books {books:?}")),
    }
}
