//! What may stand at a place of a script. A value, so that it costs nothing
//! where nobody reads it.

use super::line::RAW;
use super::quoted::Unquoted;
use crate::tables::{Field, Written, KINDS};
use crate::words::{count, thousands};
use ems::Module;
use std::fmt;

#[derive(Clone, Copy, Debug)]
pub enum Expected {
    /// A line's first word.
    Frame,
    /// A number of times.
    Times,
    /// A field's value.
    Value(&'static Field),
    /// A field's own name, or the end; also a number of times if there was none.
    Name {
        field: &'static Field,
        times: bool,
    },
    /// A text in quotes, and why this is none.
    Quoted {
        field: &'static Field,
        why: Unquoted,
    },
    Byte,
    /// The end, or the word that would tell of another kind.
    End(Option<&'static str>),
    Text,
}

impl fmt::Display for Expected {
    fn fmt(&self, f: &mut fmt::Formatter<'_>) -> fmt::Result {
        match self {
            Expected::Frame => {
                let kinds = KINDS.iter().filter(|kind| kind.told_by.is_none());
                let words: Vec<&str> = kinds.map(|kind| kind.word).collect();
                write!(f, "expected a frame: {} or {RAW}", words.join(", "))
            }
            Expected::Times => {
                write!(
                    f,
                    "expected a number 1 to {}",
                    thousands(u64::from(u32::MAX))
                )
            }
            Expected::Value(field) => value(f, field),
            Expected::Name { field, times } => {
                let times = if *times { "how often, " } else { "" };
                write!(f, "expected {times}{} or the end of the line", field.name)
            }
            Expected::Quoted { field, why } => {
                value(f, field)?;
                match why {
                    Unquoted::Unopened => f.write_str(", as in \"HELLO FROM 4B\""),
                    Unquoted::Unclosed => f.write_str("; the second quote is missing"),
                    Unquoted::TooLong(bytes) => {
                        write!(f, "; it has {}", count(*bytes as u64, "byte"))
                    }
                }
            }
            Expected::Byte => f.write_str("expected a byte: two hexadecimal digits"),
            Expected::End(None) => f.write_str("expected the end of the line"),
            Expected::End(Some(word)) => write!(f, "expected {word} or the end of the line"),
            Expected::Text => f.write_str(
                "expected text in UTF-8; if these are frames, `--as bytes` flies them and \
                 `ems show` makes a script of them",
            ),
        }
    }
}

/// What may stand for a field.
fn value(f: &mut fmt::Formatter<'_>, field: &Field) -> fmt::Result {
    let name = field.name;
    let numbers = || format!("a number 0 to {}", thousands(field.greatest()));
    match field.written {
        Written::Number => write!(f, "expected {name}: {}", numbers()),
        Written::Within(least, greatest) => {
            let greatest = thousands(greatest);
            write!(f, "expected {name}: a number {least} to {greatest}")
        }
        Written::Word(example) => write!(f, "expected {name}, as in `{example}`"),
        Written::Named(names) => {
            let names: Vec<&str> = names.iter().map(|row| row.1).collect();
            let (names, numbers) = (names.join(", "), numbers());
            write!(f, "expected {name}: {names}, or {numbers}")
        }
        Written::Modules => {
            let names = Module::ALL.map(Module::name).join(", ");
            write!(f, "expected modules with commas between: {names}")
        }
        Written::Quoted => {
            let most = count(field.longest() as u64, "byte");
            write!(f, "expected {name}: up to {most} in double quotes")
        }
    }
}
