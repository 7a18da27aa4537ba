//! A line of a case: a word and its values.

use crate::Result;
use std::str::FromStr;

/// A word and its values, each as often as it stands there.
#[derive(Clone, Debug, PartialEq, Eq)]
pub struct Line {
    /// Where it stands in the file, from 1.
    pub number: usize,
    /// What the values are.
    pub word: String,
    /// The values; a lone `-` is none.
    pub values: Vec<String>,
}

impl Line {
    /// The line that this text is.
    pub fn read(number: usize, text: &str) -> Result<Line> {
        let mut words = text.split_whitespace();
        let word = words.next().unwrap_or_default().to_string();
        let given: Vec<&str> = words.collect();
        let mut values = Vec::new();
        match given[..] {
            [] => return Err(format!("line {number}: {word} has no value")),
            ["-"] => {}
            _ => {
                for value in given {
                    let (value, times) = repeated(value)
                        .ok_or_else(|| format!("line {number}: {value:?} is no value"))?;
                    values.extend(std::iter::repeat_n(value.to_string(), times));
                }
            }
        }
        Ok(Line {
            number,
            word,
            values,
        })
    }

    /// The values as bytes in hex, each by itself.
    pub fn frames(&self) -> Result<Vec<Vec<u8>>> {
        let frames = self.values.iter().map(|value| hex(value));
        frames
            .collect::<Option<_>>()
            .ok_or_else(|| self.wrong("bytes in hex"))
    }

    /// The values as bytes in hex, end to end.
    pub fn bytes(&self) -> Result<Vec<u8>> {
        Ok(self.frames()?.concat())
    }

    /// The one value.
    pub fn value(&self) -> Result<&str> {
        match &self.values[..] {
            [value] => Ok(value),
            _ => Err(self.wrong("one value")),
        }
    }

    /// The one value, a decimal number.
    pub fn number<T: FromStr>(&self) -> Result<T> {
        let number = self.value()?.parse();
        number.map_err(|_| self.wrong("a number"))
    }

    /// The values as decimal numbers.
    pub fn numbers<T: FromStr>(&self) -> Result<Vec<T>> {
        let numbers = self.values.iter().map(|value| value.parse().ok());
        numbers
            .collect::<Option<_>>()
            .ok_or_else(|| self.wrong("numbers"))
    }

    /// That the values are not what they should be.
    pub fn wrong(&self, wanted: &str) -> String {
        format!("line {}: {} is not {wanted}", self.number, self.word)
    }
}

/// A value, and how often it stands there: `0100*30` is `0100` thirty times.
fn repeated(value: &str) -> Option<(&str, usize)> {
    let (value, times) = match value.split_once('*') {
        Some((value, times)) => (value, times.parse().ok()?),
        None => (value, 1),
    };
    (!value.is_empty() && times > 0).then_some((value, times))
}

/// The bytes that are written so.
pub(crate) fn hex(text: &str) -> Option<Vec<u8>> {
    let digits: Option<Vec<u32>> = text.chars().map(|digit| digit.to_digit(16)).collect();
    let pairs = digits.filter(|digits| digits.len().is_multiple_of(2))?;
    Some(
        pairs
            .chunks(2)
            .map(|at| (16 * at[0] + at[1]) as u8)
            .collect(),
    )
}
