//! One line of a curve's file.

use super::curve::Row;
use super::expected::Expected;
use crate::mistake;
use crate::script::decimal;

/// The head line's cells.
pub const HEAD: [&str; 2] = ["millivolts", "milliamperes"];

/// What is wrong with a line.
pub type Wrong<'a> = mistake::Wrong<'a, Expected>;

/// A line of the file.
#[derive(Clone, Copy)]
pub struct Line<'a> {
    /// From 1.
    pub number: usize,
    pub text: &'a str,
}

/// What stands between two commas, without the blanks around it.
#[derive(Clone, Copy)]
pub struct Cell<'a> {
    /// Where it begins in its line, in bytes.
    at: usize,
    word: &'a str,
}

impl<'a> Line<'a> {
    /// What stands before and after its commas.
    pub fn cells(self) -> Vec<Cell<'a>> {
        let mut begin = 0;
        let mut cells = Vec::new();
        for part in self.said().split(',') {
            let blanks = part.len() - part.trim_start().len();
            cells.push(Cell {
                at: begin + blanks,
                word: part.trim(),
            });
            begin += part.len() + 1;
        }
        cells
    }

    /// The line without its comment.
    pub fn said(self) -> &'a str {
        let said = self.text.split('#').next();
        said.unwrap_or_default().trim_end()
    }

    /// Where more of it would stand.
    pub fn end(self) -> Cell<'a> {
        Cell {
            at: self.said().len(),
            word: "",
        }
    }

    /// Something is wrong with a cell of it.
    pub fn wrong(self, cell: Cell<'a>, expected: Expected) -> Wrong<'a> {
        Wrong {
            line: self.number,
            text: self.text,
            at: cell.at,
            word: Some(cell.word),
            expected,
        }
    }

    /// The head line, which it should be.
    pub fn head(self) -> Result<(), Wrong<'a>> {
        let cells = self.cells();
        let is_other = |at: &usize| match (cells.get(*at), HEAD.get(*at)) {
            (Some(cell), Some(name)) => !cell.word.eq_ignore_ascii_case(name),
            _ => true,
        };
        match (0..cells.len().max(HEAD.len())).find(is_other) {
            None => Ok(()),
            Some(at) => {
                let cell = cells.get(at).copied().unwrap_or(self.end());
                Err(self.wrong(cell, Expected::Head))
            }
        }
    }

    /// A row: the first one, or one that comes after the last that could be read.
    pub fn row(self, is_first: bool, before: Option<&Row>) -> Result<Row, Wrong<'a>> {
        let cells = self.cells();
        let number = decimal(cells[0].word, u64::from(u32::MAX));
        let Some(millivolts) = number.and_then(|number| u32::try_from(number).ok()) else {
            return Err(self.wrong(cells[0], Expected::Millivolts));
        };
        if is_first && millivolts > 0 {
            return Err(self.wrong(cells[0], Expected::FromZero));
        }
        if let Some(before) = before.filter(|before| before.millivolts >= millivolts) {
            return Err(self.wrong(cells[0], Expected::MoreThan(before.millivolts)));
        }
        match cells[1..] {
            [] => Err(self.wrong(self.end(), Expected::Comma)),
            [amperes] => match milliamperes(amperes.word) {
                Some(milliamperes) => Ok(Row {
                    millivolts,
                    milliamperes,
                }),
                None => Err(self.wrong(amperes, Expected::Milliamperes)),
            },
            [_, more, ..] => Err(self.wrong(more, Expected::End)),
        }
    }
}

/// Digits, and a point with more of them behind it or none.
fn milliamperes(word: &str) -> Option<f64> {
    let (whole, decimals) = word.split_once('.').unwrap_or((word, "0"));
    decimal(whole, u64::from(u32::MAX))?;
    let digits = !decimals.is_empty() && decimals.bytes().all(|byte| byte.is_ascii_digit());
    word.parse()
        .ok()
        .filter(|&number: &f64| digits && number <= f64::from(u32::MAX))
}
