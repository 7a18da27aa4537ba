//! How a command ends badly: what standard error is told, and a status.

use std::{fmt, io};

/// Wrong usage, or a file that can't be read or written.
pub const USAGE: u8 = 1;
/// The board, the keyer, the reader or the tracker refused what it was given.
pub const REFUSED: u8 = 2;
/// `compare`, `track`: the flights, or the walk, are not what the promise speaks of.
pub const PREMISES: u8 = 3;
/// `compare`, `track`: they are, and what is promised doesn't hold. `books`: nor does it
/// of the seconds.
pub const CONCLUSIONS: u8 = 4;

/// Why a command ended, and with which status.
#[derive(Debug)]
pub struct Failure {
    pub status: u8,
    /// Each is said by itself.
    pub messages: Vec<String>,
}

impl Failure {
    pub fn new(status: u8, message: impl Into<String>) -> Failure {
        let messages = vec![message.into()];
        Failure { status, messages }
    }

    pub fn usage(message: impl Into<String>) -> Failure {
        Failure::new(USAGE, message)
    }

    /// The same with another message, if there is one.
    pub fn and(mut self, message: Option<String>) -> Failure {
        self.messages.extend(message);
        self
    }

    /// A file that can't be opened, read or written.
    pub fn file(name: impl fmt::Display, error: &io::Error) -> Failure {
        Failure::usage(format!("{name}: {}", said(error)))
    }
}

/// What went wrong, without the number that the system gives it.
pub fn said(error: &io::Error) -> String {
    if error.kind() == io::ErrorKind::BrokenPipe {
        return "closed before everything was written".to_string();
    }
    let text = error.to_string();
    match text.find(" (os error") {
        Some(end) => text[..end].to_string(),
        None => text,
    }
}

/// Errors of writing carry the file's name already: see `output`.
impl From<io::Error> for Failure {
    fn from(error: io::Error) -> Failure {
        Failure::usage(said(&error))
    }
}
