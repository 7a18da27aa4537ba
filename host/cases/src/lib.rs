//! The cases of `tests/vectors/calls`: calls that are no log, and what must come of
//! them. They were made by an implementation that shares nothing with ours.
//!
//! [`read`] reads any of the files; [`pass`], [`track`], [`modules_on`], [`books`] and
//! [`summary`] make the calls of one each, on the model or on the compiled library.

#![forbid(unsafe_code)]
#![deny(missing_docs)]

mod board;
pub mod books;
mod line;
pub mod modules_on;
pub mod pass;
mod read;
pub mod summary;
pub mod track;

pub use board::Board;
pub use line::Line;
pub use read::{read, Case};

/// What is wrong with a case, or what came out otherwise, with the line it is at.
pub type Result<T> = std::result::Result<T, String>;

/// The text of a file of `tests/vectors/calls`.
pub fn text(name: &str) -> Result<String> {
    let folder = concat!(env!("CARGO_MANIFEST_DIR"), "/../../tests/vectors/calls/");
    let path = format!("{folder}{name}");
    std::fs::read_to_string(&path).map_err(|error| format!("{path}: {error}"))
}
