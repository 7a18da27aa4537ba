//! Pass scripts: frames as lines of text. `docs/PASS-SCRIPTS.md` is the
//! reference.

mod expected;
mod fields;
mod line;
mod quoted;
mod reader;
mod sending;

pub use fields::{decimal, in_words, word_of};
pub use sending::Sending;

use crate::mistake::{Mistake, Mistakes};
use crate::text::text;
use expected::Expected;

/// A line that sends something.
#[derive(Debug, PartialEq, Eq)]
pub struct Line {
    /// Its number in the file, from 1.
    pub number: usize,
    /// What it sends.
    pub bytes: Vec<u8>,
    /// How often.
    pub times: u32,
}

/// A text without a mistake in it.
#[derive(Debug)]
pub struct Script {
    text: String,
    /// How many bytes it sends.
    pub length: u64,
}

impl Script {
    /// The script that a file's content is, or what is wrong with it. Lines are
    /// looked at and not kept: there may be millions.
    pub fn read(content: Vec<u8>) -> Result<Script, Mistakes> {
        let text = text(content, Expected::Text)?;
        let mut mistakes = Mistakes::new();
        let mut length = 0;
        for (at, line) in text.lines().enumerate() {
            match line::parse(at + 1, line) {
                Ok(sent) => length += sent.map_or(0, |sent| sent.length()),
                Err(wrong) => mistakes.add(|| Mistake::of(&wrong)),
            }
        }
        if mistakes.is_empty() {
            Ok(Script { text, length })
        } else {
            Err(mistakes)
        }
    }
}

impl Line {
    /// How many bytes it sends.
    fn length(&self) -> u64 {
        u64::from(self.times) * self.bytes.len() as u64
    }
}
