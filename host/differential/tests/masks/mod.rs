//! Masks that go wrong in ways that look right: [`frames`] that leave them untrue,
//! [`checks`] that take them so, and [`counts`] of something else.

pub mod checks;
pub mod counts;
pub mod frames;
