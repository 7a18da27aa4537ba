//! A flight told line by line, with ticks in which nothing happened taken together.

use crate::board::Step;
use crate::output::Output;
use crate::refusal::reason;
use crate::script::in_words;
use crate::story;
use crate::tables::{shorts, TICK};
use crate::words::{clock, count, list, modules, thousands};
use ems::{Beacon, Report};
use std::io::{self, Write};

const HEADER: &str = "    time      frame  what was sent, and what came of it";

/// What has been told so far, and what is still to be.
pub struct Telling {
    quiet: Option<Quiet>,
}

/// A beacon that is due.
pub struct Due {
    pub beacon: Beacon,
    /// Its text, where anybody has the image to form it from.
    pub text: Option<String>,
}

/// Ticks with the same shorts in which nothing happened.
struct Quiet {
    shorts: u8,
    first: u64,
    last: u64,
    seconds: u64,
    /// How many beacons of each kind fell due, and the last one's text.
    beacons: [(Beacon, u64); Beacon::ALL.len()],
    text: Option<String>,
}

impl Telling {
    pub fn begin(output: &mut Output) -> io::Result<Telling> {
        writeln!(output, "{HEADER}")?;
        Ok(Telling { quiet: None })
    }

    /// Tells of a frame and what it made due; later, if it may be one of many ticks.
    pub fn add(
        &mut self,
        output: &mut Output,
        frame: &[u8],
        step: &Step,
        due: Option<Due>,
    ) -> io::Result<()> {
        if let Some(mut said) = happened(frame, step) {
            self.end(output)?;
            if let Some(Due { beacon, text }) = due {
                let text = text.map(|text| format!(": {text}")).unwrap_or_default();
                said += &format!("; {beacon} beacon due{text}");
            }
            return line(output, step.seconds, step.n, &said);
        }
        let shorts = shorts(frame);
        if self
            .quiet
            .as_ref()
            .is_some_and(|quiet| quiet.shorts != shorts)
        {
            self.end(output)?;
        }
        self.quiet
            .get_or_insert_with(|| Quiet::new(shorts, step))
            .add(step, due);
        Ok(())
    }

    /// Tells of the quiet ticks so far, if there are any.
    pub fn end(&mut self, output: &mut Output) -> io::Result<()> {
        let Some(quiet) = self.quiet.take() else {
            return Ok(());
        };
        let text = format!("{}: nothing changed{}", quiet.ticks(), quiet.due());
        line(output, quiet.seconds, quiet.last, &text)
    }
}

/// What was sent and what it did; none for a tick in which nothing happened.
fn happened(frame: &[u8], step: &Step) -> Option<String> {
    let came = match step.outcome {
        Ok(report) => came_of(frame, step, &report)?,
        Err(refusal) => format!("refused, {refusal}: {}", reason(frame, refusal)),
    };
    Some(format!("{}: {came}", in_words(frame)))
}

/// What a frame did that has a report.
fn came_of(frame: &[u8], step: &Step, report: &Report) -> Option<String> {
    if report.kind != TICK {
        return Some(story::outcome(frame, step, report));
    }
    let changes = story::changes(frame, step);
    (!changes.is_empty()).then(|| changes.join("; "))
}

impl Quiet {
    fn new(shorts: u8, step: &Step) -> Quiet {
        Quiet {
            shorts,
            first: step.n,
            last: step.n,
            seconds: step.seconds,
            beacons: Beacon::ALL.map(|beacon| (beacon, 0)),
            text: None,
        }
    }

    fn add(&mut self, step: &Step, due: Option<Due>) {
        self.last = step.n;
        self.seconds = step.seconds;
        if let Some(Due { beacon, text }) = due {
            self.text = text;
            for (kind, fell) in &mut self.beacons {
                *fell += u64::from(*kind == beacon);
            }
        }
    }

    /// The ticks: one as it was sent, or how many and which frames they are.
    fn ticks(&self) -> String {
        if self.first == self.last {
            return in_words(&[TICK, self.shorts]);
        }
        let shorts = match self.shorts {
            0 => String::new(),
            shorts => format!(" with shorts on {}", list(&modules(shorts))),
        };
        let ticks = count(self.last - self.first + 1, "tick");
        let (first, last) = (thousands(self.first), thousands(self.last));
        format!("{ticks}{shorts}, frames {first} to {last}")
    }

    /// The beacons that fell due.
    fn due(&self) -> String {
        let mut said = String::new();
        for (kind, fell) in self.beacons {
            if fell > 0 {
                said += &format!("; {}", count(fell, &format!("{kind} beacon")));
            }
        }
        if let Some(text) = &self.text {
            let fell: u64 = self.beacons.iter().map(|(_, fell)| fell).sum();
            said += if fell > 1 { ", the last " } else { ", " };
            said += text;
        }
        said
    }
}

fn line(output: &mut Output, seconds: u64, n: u64, text: &str) -> io::Result<()> {
    writeln!(output, "{:>8} {:>10}  {text}", clock(seconds), thousands(n))
}
