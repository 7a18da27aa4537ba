//! `ems compare`: two craft side by side. It checks what the two-craft promise
//! asks of them, and shows what it promises.

use crate::args::{self, Compare};
use crate::board::Step;
use crate::compare::{Promise, Rows};
use crate::failure::{Failure, CONCLUSIONS, PREMISES};
use crate::flight::Flight;
use crate::output::Output;
use std::io::Write;
use std::path::Path;

/// Two craft, and what has been seen of them.
struct Pair {
    a: Flight,
    b: Flight,
    promise: Promise,
    rows: Rows,
}

pub fn run(compare: &Compare) -> Result<(), Failure> {
    if [&compare.a, &compare.b]
        .iter()
        .all(|path| *path == Path::new("-"))
    {
        return Err(Failure::usage(
            "standard input can be one of the two craft, not both",
        ));
    }
    let open = |file: &Path| {
        let (file, kind) = (file.to_path_buf(), compare.kind);
        Flight::going(&args::Flight { file, kind }, compare.going.keep_going)
    };
    let mut pair = Pair {
        a: open(&compare.a)?,
        b: open(&compare.b)?,
        promise: Promise::default(),
        rows: Rows::default(),
    };
    let mut output = Output::standard()?;
    writeln!(output, "A is {}, B is {}", pair.a.name(), pair.b.name())?;
    while pair.step(&mut output)? {}
    pair.rows.end(&mut output)?;
    if !pair.rows.any() {
        writeln!(output, "\nThey never differ.")?;
    }
    write!(output, "\n{}", pair.promise.verdict())?;
    output.flush()?;
    drop(output);
    pair.ended()
}

impl Pair {
    /// Steps both over their next frame; false where that is the end.
    fn step(&mut self, output: &mut Output) -> Result<bool, Failure> {
        let (a, b) = match (self.a.step()?, self.b.step()?) {
            (None, None) => return Ok(false),
            (Some(a), Some(b)) => (a, b),
            (Some(a), None) => return Ok(self.alone(&a, "A")),
            (None, Some(b)) => return Ok(self.alone(&b, "B")),
        };
        let sent = (self.a.frame(), a.outcome);
        self.promise.sent(a.n, sent, (self.b.frame(), b.outcome));
        if let (Ok(one), Ok(other)) = (a.outcome, b.outcome) {
            self.promise.found(a.n, &one, &other);
            let sent = || self.a.sent();
            self.rows
                .add(output, (a.n, a.seconds), sent, &one, &other)?;
        }
        let cut_off = self.a.is_cut_off() || self.b.is_cut_off();
        if cut_off {
            self.promise.stop();
        }
        Ok(!cut_off)
    }

    /// The end, where only one of the two has a frame.
    fn alone(&mut self, step: &Step, which: &str) -> bool {
        let side = if which == "A" { &self.a } else { &self.b };
        let why = format!("only {which} has a frame here, `{}`", side.sent());
        self.promise.not_spoken_of(step.n, why);
        self.promise.stop();
        false
    }

    /// The status: premises first, then conclusions, then what was refused. Where
    /// the premises hold, that is the same on both.
    fn ended(self) -> Result<(), Failure> {
        if let Err(why) = self.promise.premises() {
            let message = format!("the premises do not hold: {why}");
            let hint = self.a.hint().or_else(|| self.b.hint());
            return Err(Failure::new(PREMISES, message).and(hint));
        }
        if let Err(what) = self.promise.conclusions() {
            let message = format!("a conclusion does not hold: {what}");
            return Err(Failure::new(CONCLUSIONS, message));
        }
        self.a.end().map_err(|mut failure| {
            for message in &mut failure.messages {
                message.insert_str(0, "on both craft: ");
            }
            failure
        })
    }
}
