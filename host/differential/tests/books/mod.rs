//! Calls with books that go wrong in ways that look right: [`refusals`] in another place,
//! something [`moved`] at them, [`counts`] of something else, and [`summaries`].

pub mod counts;
pub mod moved;
pub mod refusals;
pub mod summaries;
mod without;
