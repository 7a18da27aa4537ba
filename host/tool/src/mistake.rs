//! Mistakes in a text that people write: each with its place, what was expected there,
//! and the line.

use crate::failure::{Failure, USAGE};
use crate::few::Few;
use crate::words::{thousands, visible};
use std::fmt::Display;
use unicode_width::UnicodeWidthChar;

/// Of a long line, so many characters are shown before the wrong word, and so
/// many from its begin on.
const BEFORE: usize = 40;
const FROM: usize = 60;

/// Stands for what is left out.
const CUT: &str = "...";

/// What is wrong with a line: where, and what was expected there.
#[derive(Debug)]
pub struct Wrong<'a, E> {
    /// The line's number, from 1.
    pub line: usize,
    /// The whole line.
    pub text: &'a str,
    /// Where in it the wrong word begins, in bytes; or the last one ends, after
    /// which one is missing.
    pub at: usize,
    pub word: Option<&'a str>,
    pub expected: E,
}

/// Everything wrong with a text: the first few, and how many more there are.
pub type Mistakes = Few<Mistake>;

/// One thing wrong.
#[derive(Debug)]
pub struct Mistake {
    line: usize,
    /// The column of its first character, from 1.
    column: usize,
    expected: String,
    /// The line, and under it what points at the wrong word.
    text: String,
    carets: String,
}

impl Mistake {
    pub fn of<E: Display>(wrong: &Wrong<E>) -> Mistake {
        let Wrong {
            line,
            text,
            at,
            word,
            ref expected,
        } = *wrong;
        let (before, from) = text.split_at(at);
        let (shown_before, shown_from) = (last(before, BEFORE), first(from, FROM));
        let pointed: String = shown_from
            .chars()
            .take(word.map_or(1, |word| word.chars().count()))
            .collect();
        // A missing word would stand after a blank.
        let (blanks, carets) = match word {
            Some(_) => ("", width(&pointed).max(1)),
            None => (" ", 1),
        };
        Mistake {
            line,
            column: 1 + before.chars().count() + blanks.len(),
            expected: expected.to_string(),
            text: drawn(&(shown_before.clone() + &shown_from)),
            carets: blank(&shown_before) + blanks + &"^".repeat(carets),
        }
    }

    fn show(&self, file: &str) -> String {
        let Mistake {
            line,
            column,
            expected,
            text,
            carets,
        } = self;
        format!("{file}:{line}:{column}: {expected}\n    {text}\n    {carets}")
    }
}

impl Mistakes {
    /// The end of a command that reads such a file.
    pub fn failure(&self, file: &str) -> Failure {
        let mut messages: Vec<String> = self.kept().iter().map(|one| one.show(file)).collect();
        if self.more() > 0 {
            messages.push(format!("{file}: and {} more", thousands(self.more())));
        }
        let status = USAGE;
        Failure { status, messages }
    }
}

/// The last characters of a text.
fn last(text: &str, count: usize) -> String {
    match text.char_indices().rev().nth(count) {
        Some((at, c)) => CUT.to_string() + &text[at + c.len_utf8()..],
        None => text.to_string(),
    }
}

/// The first characters of a text.
fn first(text: &str, count: usize) -> String {
    match text.char_indices().nth(count) {
        Some((at, _)) => text[..at].to_string() + CUT,
        None => text.to_string(),
    }
}

/// A part of a line as it is shown. Tabs stay: what points at it has them too.
fn drawn(text: &str) -> String {
    let parts: Vec<String> = text.split('\t').map(visible).collect();
    parts.join("\t")
}

/// Blanks as wide as a text.
fn blank(text: &str) -> String {
    let parts: Vec<String> = text
        .split('\t')
        .map(|part| " ".repeat(width(part)))
        .collect();
    parts.join("\t")
}

/// The columns that a text takes on a screen.
fn width(text: &str) -> usize {
    let text = visible(text);
    text.chars().map(|c| c.width().unwrap_or(0)).sum()
}
