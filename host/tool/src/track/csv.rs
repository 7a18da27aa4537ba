//! A curve's file: a head line, and rows in the order of their voltage. From `#` to the
//! end of a line is a comment.

use super::curve::{Curve, Row};
use super::expected::Expected;
use super::line::{Line, Wrong};
use crate::mistake::{Mistake, Mistakes};
use crate::text::text;

impl Curve {
    /// The curve that a file's content is, or what is wrong with it.
    pub fn read(content: Vec<u8>) -> Result<Curve, Mistakes> {
        let text = text(content, Expected::Text)?;
        let mut mistakes = Mistakes::new();
        let mut rows: Vec<Row> = Vec::new();
        let mut lines = lines(&text);
        if let Some(wrong) = lines.next().and_then(|line| line.head().err()) {
            mistakes.add(|| Mistake::of(&wrong));
        }
        let mut last = None;
        for line in lines {
            // Without a head line nobody knows which row was meant to be the first.
            let is_first = last.is_none() && mistakes.is_empty();
            match line.row(is_first, rows.last()) {
                Ok(row) => rows.push(row),
                Err(wrong) => mistakes.add(|| Mistake::of(&wrong)),
            }
            last = Some(line);
        }
        if mistakes.is_empty() {
            if let Some(wrong) = unended(&text, last, rows.last()) {
                mistakes.add(|| Mistake::of(&wrong));
            }
        }
        match mistakes.is_empty() {
            true => Ok(Curve::of(rows)),
            false => Err(mistakes),
        }
    }
}

/// The lines with something on them.
fn lines(text: &str) -> impl Iterator<Item = Line<'_>> {
    let lines = text.lines().enumerate().map(|(at, text)| Line {
        number: at + 1,
        text,
    });
    lines.filter(|line| !line.said().is_empty())
}

/// What is wrong where the rows end, if they don't end with no current.
fn unended<'a>(text: &str, last: Option<Line<'a>>, row: Option<&Row>) -> Option<Wrong<'a>> {
    let Some(last) = last else {
        let end = Line {
            number: text.lines().count() + 1,
            text: "",
        };
        let head = lines(text).next().is_some();
        let expected = if head { Expected::Row } else { Expected::Head };
        return Some(end.wrong(end.end(), expected));
    };
    let cells = last.cells();
    let flows = row.is_some_and(|row| row.milliamperes > 0.0);
    flows.then(|| last.wrong(cells[cells.len() - 1], Expected::ToZero))
}
