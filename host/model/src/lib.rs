//! The rules a second time, in plain Rust: document 01's, and of document 02 the
//! orders with an end, the pass, the tries that a module keeps, the four signs more,
//! the greetings, the panel tracker, the bound on keying room, the masks that are kept,
//! the crossing upward that requests nothing, and the seconds in the books.
//!
//! It is written from their words alone and shares nothing with the proved
//! library, so that a slip in either shows as a difference. It goes for being
//! obvious where it can be slow: it allocates, and it reads units back by
//! keying its guess again.
//!
//! [`calls`] has the calls of `include/ems.h`, byte for byte; [`step_log`] the
//! page's program.

#![forbid(unsafe_code)]
#![deny(missing_docs)]

pub mod beacon;
pub mod books;
pub mod calls;
pub mod frame;
pub mod image;
mod log;
pub mod masks;
pub mod message;
pub mod morse;
pub mod pass;
pub mod report;
pub mod state;
pub mod step;
pub mod table;
mod tick;
pub mod track;

pub use log::{log_of, step_log};
pub use state::State;
