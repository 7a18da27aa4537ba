//! Two craft, frame by frame: where they differ, and the promise made of them.

mod promise;
mod rows;

pub use promise::Promise;
pub use rows::Rows;
