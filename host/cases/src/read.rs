//! A file of cases: blocks of lines, parted by blank ones.

use crate::{Line, Result};

/// A block of lines, in their order.
#[derive(Clone, Debug, Default, PartialEq, Eq)]
pub struct Case {
    /// The lines; there is one at least.
    pub lines: Vec<Line>,
}

impl Case {
    /// Where the case begins in its file.
    pub fn place(&self) -> usize {
        self.lines.first().map_or(0, |line| line.number)
    }

    /// The line with a word, which may stand once.
    pub fn optional(&self, word: &str) -> Result<Option<&Line>> {
        let mut own = self.lines.iter().filter(|line| line.word == word);
        match (own.next(), own.next()) {
            (_, Some(line)) => Err(format!("line {}: {word} a second time", line.number)),
            (line, None) => Ok(line),
        }
    }

    /// The line with a word, which stands once.
    pub fn one(&self, word: &str) -> Result<&Line> {
        let line = self.optional(word)?;
        line.ok_or_else(|| format!("line {}: a case without {word}", self.place()))
    }
}

/// The cases of a text whose lines have these words and no other. A line that
/// begins with `#` is a comment.
pub fn read(text: &str, words: &[&str]) -> Result<Vec<Case>> {
    let mut cases = Vec::new();
    let mut case = Case::default();
    for (place, line) in text.lines().enumerate() {
        if line.trim().is_empty() {
            cases.push(std::mem::take(&mut case));
        } else if !line.starts_with('#') {
            let line = Line::read(place + 1, line)?;
            if !words.contains(&line.word.as_str()) {
                return Err(format!("line {}: no word {}", line.number, line.word));
            }
            case.lines.push(line);
        }
    }
    cases.push(case);
    cases.retain(|case| !case.lines.is_empty());
    Ok(cases)
}
