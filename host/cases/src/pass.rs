//! The cases of `pass.txt`: a whole pass in one call.

use crate::board::{has_report, BEFORE, BEHIND, REPORT};
use crate::{read, text, Board, Case, Result};

/// The words of the file.
const WORDS: [&str; 8] = [
    "from", "image", "frames", "room", "answer", "reported", "reports", "next",
];

/// All cases of the file.
pub fn cases() -> Result<Vec<Case>> {
    read(&text("pass.txt")?, &WORDS)
}

/// `ems_pass`: its answer, and how many frames got a report.
pub type Pass = fn(&mut [u8], &[u8], &mut [u8]) -> (u8, usize);

/// The answer to a frame whose length is not its kind's.
const WRONG_LENGTH: u8 = 5;
/// A second without shorts.
const TICK: [u8; 2] = [0x01, 0x00];

/// Makes the calls of a case: what came out otherwise, if anything did.
pub fn check(case: &Case, board: &Board, pass: Pass) -> Result<()> {
    let mut image = board.start(case)?;
    let before = image.clone();
    let frames = case.one("frames")?.bytes()?;
    let room: usize = case.one("room")?.number()?;
    let mut replies = vec![BEFORE; room + BEHIND];
    let (answer, reported) = pass(&mut image, &frames, &mut replies[..room]);

    let differs = |what: &str, given: &dyn std::fmt::Debug| {
        Err(format!("case at line {}: {what} {given:X?}", case.place()))
    };
    if answer != case.one("answer")?.number()? {
        return differs("answer", &answer);
    }
    if reported != case.one("reported")?.number()? {
        return differs("reported", &reported);
    }
    let mut wanted = case.one("reports")?.bytes()?;
    if wanted.len() != REPORT * reported {
        return Err(case.one("reports")?.wrong("a report for each"));
    }
    wanted.resize(replies.len(), BEFORE);
    if replies != wanted {
        return differs("room", &replies);
    }
    let stepped = one_by_one(before, &frames, reported, board);
    if stepped.as_ref() != Some(&image) {
        return differs("not the state of single calls:", &image);
    }
    match (case.optional("image")?, case.optional("next")?) {
        (Some(_), None) => Ok(()),
        (None, Some(next)) => {
            let mut report = [BEFORE; REPORT];
            (board.step)(&mut image, &TICK, &mut report);
            match next.bytes()? == report {
                true => Ok(()),
                false => differs("next", &report),
            }
        }
        _ => Err(format!("line {}: neither image nor next", case.place())),
    }
}

/// The image after the first so many frames by single calls; none where one of
/// them gets no report. A frame ends where a step doesn't find its length wrong.
fn one_by_one(
    mut image: Vec<u8>,
    mut frames: &[u8],
    reported: usize,
    board: &Board,
) -> Option<Vec<u8>> {
    for _ in 0..reported {
        let step = |length: usize| {
            let mut next = image.clone();
            let answer = (board.step)(&mut next, &frames[..length], &mut [0; REPORT]);
            (answer != WRONG_LENGTH).then_some((answer, next, length))
        };
        let (answer, next, length) = (1..=frames.len()).find_map(step)?;
        if !has_report(answer) {
            return None;
        }
        image = next;
        frames = &frames[length..];
    }
    Some(image)
}
