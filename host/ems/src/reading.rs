//! What the panel tracker goes by, and the limits of its numbers.

/// A panel's voltage and current, measured at the same time.
#[derive(Clone, Copy, Debug, PartialEq, Eq)]
pub struct Reading {
    /// The voltage, 0 to [`MOST_MILLIVOLTS`].
    pub millivolts: u32,
    /// The current, 0 to [`MOST_MILLIAMPERES`].
    pub milliamperes: u32,
}

/// The greatest voltage of a reading, and the greatest set point, in millivolts.
pub const MOST_MILLIVOLTS: u32 = 20_000;
/// The greatest current of a reading, in milliamperes.
pub const MOST_MILLIAMPERES: u32 = 5_000;
/// The longest step of the set point, either way, in millivolts; the shortest is 1.
pub const LONGEST_STEP: i32 = 500;
