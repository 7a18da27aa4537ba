//! What the differential tests are made of: cases from a seed, a comparison of
//! the library with the model, and a failure made short.
//!
//! `tests/differential.rs` runs them; `tests/harness.rs` sees that a planted
//! fault is found.

#![forbid(unsafe_code)]
#![deny(missing_docs)]

pub mod bookkeeping;
pub mod books;
pub mod compare;
pub mod crossings;
pub mod frames;
pub mod groups;
pub mod images;
pub mod in_image;
pub mod masks;
pub mod messages;
pub mod pairs;
pub mod passes;
pub mod rng;
pub mod sending;
pub mod shorting;
pub mod shrink;
pub mod sides;
pub mod texts;
pub mod tracks;
pub mod two_craft;
