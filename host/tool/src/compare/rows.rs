//! Where two craft differ: a block for each stretch of frames with the same
//! difference.

use crate::tables::{answer, mode};
use crate::words::{clock, modules, thousands};
use ems::Report;
use std::io::{self, Write};

/// The width of A's column.
const WIDTH: usize = 28;

/// Frames with the same difference, in a row.
struct Row {
    first: (u64, u64),
    last: (u64, u64),
    lines: Vec<String>,
    sent: Option<String>,
}

/// The stretch of frames that is being followed.
#[derive(Default)]
pub struct Rows {
    row: Option<Row>,
    any: bool,
}

impl Rows {
    /// One more frame: its number and its time, how it was sent if the answers
    /// differ, and both reports.
    pub fn add(
        &mut self,
        output: &mut impl Write,
        at: (u64, u64),
        sent: impl Fn() -> String,
        a: &Report,
        b: &Report,
    ) -> io::Result<()> {
        let lines = differences(a, b);
        let sent = (a.answer != b.answer).then(sent);
        match &mut self.row {
            Some(row) if row.lines == lines && row.sent == sent => row.last = at,
            _ => {
                self.end(output)?;
                if !lines.is_empty() {
                    let (first, last) = (at, at);
                    self.row = Some(Row {
                        first,
                        last,
                        lines,
                        sent,
                    });
                }
            }
        }
        Ok(())
    }

    /// Writes the stretch down, if there is one.
    pub fn end(&mut self, output: &mut impl Write) -> io::Result<()> {
        let Some(row) = self.row.take() else {
            return Ok(());
        };
        self.any = true;
        let ((first, from), (last, to)) = (row.first, row.last);
        let sent = row.sent.map(|sent| format!(": {sent}")).unwrap_or_default();
        let (first_said, from) = (thousands(first), clock(from));
        if first == last {
            writeln!(output, "\nframe {first_said}, {from}{sent}")?;
        } else {
            let (last, to) = (thousands(last), clock(to));
            writeln!(output, "\nframes {first_said} to {last}, {from} to {to}")?;
        }
        writeln!(output, "  {:11}{:WIDTH$}B", "", "A")?;
        row.lines
            .iter()
            .try_for_each(|line| writeln!(output, "  {line}"))
    }

    /// Whether there was any difference.
    pub fn any(&self) -> bool {
        self.any
    }
}

/// What two reports differ in; of masks, the modules that only one has.
fn differences(a: &Report, b: &Report) -> Vec<String> {
    let mut lines = Vec::new();
    let mut line = |what: &str, a: String, b: String| {
        lines.push(format!("{what:11}{a:WIDTH$}{b}"));
    };
    if a.answer != b.answer {
        line("answer", answer(a.answer), answer(b.answer));
    }
    if a.mode != b.mode {
        line("mode", mode(a.mode), mode(b.mode));
    }
    let masks = [
        ("requested", a.requested, b.requested),
        ("on", a.on, b.on),
        ("failed", a.failed, b.failed),
    ];
    for (what, a, b) in masks {
        if a != b {
            line(what, alone(a & !b), alone(b & !a));
        }
    }
    lines
}

/// Modules that the other hasn't got.
fn alone(mask: u8) -> String {
    match mask {
        0 => "-".to_string(),
        mask => modules(mask).join(","),
    }
}
