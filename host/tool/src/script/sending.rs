//! A script on its way: lines as bytes, one after the other.

use super::{line, Line, Script};

/// The bytes that a script's lines send, each with its line's number.
pub struct Sending {
    text: String,
    /// Where the next line begins, and how many have begun before it.
    next: usize,
    lines: usize,
    line: Option<Line>,
    /// How often the line has been sent, and how much of it since.
    sent: u32,
    at: usize,
}

impl Sending {
    pub fn new(script: Script) -> Sending {
        let mut sending = Sending {
            text: script.text,
            next: 0,
            lines: 0,
            line: None,
            sent: 0,
            at: 0,
        };
        sending.line = sending.next_line();
        sending
    }

    /// The next line that sends something. None is wrong: they were all looked at.
    fn next_line(&mut self) -> Option<Line> {
        loop {
            let whole = self.text[self.next..].split_inclusive('\n').next()?;
            self.next += whole.len();
            self.lines += 1;
            let line = whole.lines().next().unwrap_or_default();
            if let Ok(Some(line)) = line::parse(self.lines, line) {
                return Some(line);
            }
        }
    }
}

impl Iterator for Sending {
    type Item = (u8, usize);

    fn next(&mut self) -> Option<(u8, usize)> {
        loop {
            let line = self.line.as_ref()?;
            if let Some(&byte) = line.bytes.get(self.at) {
                self.at += 1;
                return Some((byte, line.number));
            }
            self.at = 0;
            self.sent += 1;
            if self.sent == line.times {
                self.sent = 0;
                self.line = self.next_line();
            }
        }
    }
}
