//! What came of a pass, and the sentences that say so.

use super::Pass;
use crate::board::{Board, Passed};
use crate::refusal::reason;
use crate::script::in_words;
use crate::stream::Sent;
use crate::words::{count, list, modules, thousands};
use ems::{answer, REPORT_BYTES};

/// A pass with what one call gives for it, and what it would give with room for
/// every report.
pub struct Worked<'a> {
    pass: &'a Pass,
    /// The bytes of room, if somebody has said how many.
    room: Option<usize>,
    pub passed: Passed,
    with_room: Passed,
}

/// A frame before which a pass stops, and why.
pub struct Stop<'a> {
    pub sent: Sent<'a>,
    pub answer: u8,
}

impl<'a> Worked<'a> {
    /// Hands a pass to a board, with so many bytes of room or enough.
    pub fn by(board: &Board, pass: &'a Pass, room: Option<usize>) -> Worked<'a> {
        // More than enough makes no difference.
        let enough = pass.room();
        let given = room.map_or(enough, |room| room.min(enough));
        Worked {
            pass,
            room,
            passed: board.pass(&pass.bytes, given),
            with_room: board.pass(&pass.bytes, enough),
        }
    }

    /// Where it stopped; none if that is its end.
    pub fn stop(&self) -> Option<Stop<'a>> {
        Stop::of(self.pass, &self.passed)
    }

    /// What is said of the whole of it.
    pub fn said(&self) -> Vec<String> {
        let mut said = vec![self.came_back()];
        if let Some(stop) = self.stop() {
            said.push(format!("The pass stops {}.", stop.said()));
            said.push(self.not_worked());
            said.extend(self.with_more_room());
            said.extend(self.enough());
        }
        said.push(self.left_on());
        said
    }

    fn came_back(&self) -> String {
        let reports = self.passed.reported;
        let come = if reports == 1 { "comes" } else { "come" };
        let bytes = count((REPORT_BYTES * reports) as u64, "byte");
        let room = self
            .room
            .map(|room| format!(" of a room of {}", thousands(room as u64)));
        let every = self.stop().is_none().then_some(": one for every frame");
        format!(
            "{} {come} back, {bytes}{}{}.",
            count(reports as u64, "report"),
            room.unwrap_or_default(),
            every.unwrap_or_default(),
        )
    }

    fn not_worked(&self) -> String {
        let (all, from) = (self.pass.bytes.len(), self.pass.begin(self.passed.reported));
        let [left, all, from] = [all - from, all, from].map(|bytes| thousands(bytes as u64));
        format!("Not worked: {left} of its {all} bytes, from byte {from} on.")
    }

    /// What else would stop it, where the room did.
    fn with_more_room(&self) -> Option<String> {
        let stop = Stop::of(self.pass, &self.with_room)?;
        let by_room = self.passed.answer == answer::SHORT_ROOM;
        by_room.then(|| format!("With more room it would stop {}.", stop.said()))
    }

    /// The room for every report, if it is known how many frames there are.
    fn enough(&self) -> Option<String> {
        let frames = thousands(self.pass.count()? as u64);
        let room = count(self.pass.room() as u64, "byte");
        Some(format!(
            "For a report on every frame, {frames} in all, it takes {room} of room."
        ))
    }

    /// The modules that are on after it: how many, and which.
    fn left_on(&self) -> String {
        let number = count(self.passed.modules_on as u64, "module");
        let which = match self.passed.image.on() {
            0 => String::new(),
            on => format!(": {}", list(&modules(on))),
        };
        format!("The board is left with {number} on{which}.")
    }
}

impl<'a> Stop<'a> {
    fn of(pass: &'a Pass, passed: &Passed) -> Option<Stop<'a>> {
        let answer = passed.answer;
        let sent = pass.sent(passed.reported);
        sent.filter(|_| answer != answer::DONE)
            .map(|sent| Stop { sent, answer })
    }

    fn said(&self) -> String {
        let Stop { sent, answer } = self;
        let (n, place, frame) = (thousands(sent.n), sent.place, in_words(sent.frame));
        let why = reason(sent.frame, *answer);
        format!("before frame {n}, {place}, `{frame}`: {answer}, {why}")
    }
}
