//! A line's words, taken one by one.

use super::expected::Expected;
use super::quoted::QUOTE;
use crate::mistake;

/// What is left of a line that is being read.
#[derive(Clone)]
pub struct Reader<'a> {
    number: usize,
    text: &'a str,
    /// Where the last word ended, and where the next one begins.
    end: usize,
    next: Option<(usize, &'a str)>,
}

/// What is wrong with a line of a script.
pub type Wrong<'a> = mistake::Wrong<'a, Expected>;

impl<'a> Reader<'a> {
    pub fn new(number: usize, text: &'a str) -> Reader<'a> {
        let mut reader = Reader {
            number,
            text,
            end: 0,
            next: None,
        };
        reader.next = reader.word();
        reader
    }

    pub fn peek(&self) -> Option<&'a str> {
        self.next.map(|(_, word)| word)
    }

    /// Whether one of the words that are left is meant.
    pub fn has(&self, is_meant: impl Fn(&str) -> bool) -> bool {
        let mut ahead = self.clone();
        while let Some(word) = ahead.peek() {
            if is_meant(word) {
                return true;
            }
            ahead.skip();
        }
        false
    }

    /// Leaves the next word.
    pub fn skip(&mut self) {
        if let Some((at, word)) = self.next {
            self.end = at + word.len();
            self.next = self.word();
        }
    }

    /// Takes the next word if it means something; else that is wrong.
    pub fn take<T>(
        &mut self,
        meaning: impl Fn(&str) -> Option<T>,
        expected: Expected,
    ) -> Result<T, Wrong<'a>> {
        match self.peek().and_then(meaning) {
            Some(value) => {
                self.skip();
                Ok(value)
            }
            None => Err(self.wrong(expected)),
        }
    }

    /// The next word is wrong, or there is one missing after the last.
    pub fn wrong(&self, expected: Expected) -> Wrong<'a> {
        Wrong {
            line: self.number,
            text: self.text,
            at: self.next.map_or(self.end, |(at, _)| at),
            word: self.peek(),
            expected,
        }
    }

    /// The first word after the last one's end, up to a comment. A text in quotes is
    /// one word, whatever it has in it; without its second quote it is all that is left.
    fn word(&self) -> Option<(usize, &'a str)> {
        let rest = &self.text[self.end..];
        let at = rest.find(|c: char| !c.is_whitespace())?;
        let rest = &rest[at..];
        let length = match rest.strip_prefix(QUOTE) {
            Some(text) => text.find(QUOTE).map(|length| length + 2 * QUOTE.len_utf8()),
            None => rest.find(|c: char| c.is_whitespace() || c == '#'),
        };
        let word = &rest[..length.unwrap_or(rest.len())];
        (!word.is_empty()).then_some((self.end + at, word))
    }
}
