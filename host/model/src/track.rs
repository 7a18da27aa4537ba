//! The panel tracker: a hill climb, by a panel's readings before and after a move.

/// The greatest voltage of a reading, and the greatest set point, in millivolts.
pub const MOST_MILLIVOLTS: u32 = 20_000;
/// The greatest current of a reading, in milliamperes.
pub const MOST_MILLIAMPERES: u32 = 5_000;
/// The longest step either way, in millivolts.
pub const LONGEST_STEP: i32 = 500;

/// A panel's voltage and current.
#[derive(Clone, Copy, Debug, PartialEq, Eq)]
pub struct Reading {
    /// In millivolts.
    pub millivolts: u32,
    /// In milliamperes.
    pub milliamperes: u32,
}

impl Reading {
    /// Whether both are within their limits.
    pub fn in_range(&self) -> bool {
        self.millivolts <= MOST_MILLIVOLTS && self.milliamperes <= MOST_MILLIAMPERES
    }

    /// Their product.
    pub fn power(&self) -> u64 {
        u64::from(self.millivolts) * u64::from(self.milliamperes)
    }
}

/// The next set point and step, by the readings before and after the last move; or
/// refusal 16.
pub fn track(before: Reading, after: Reading, set_point: u32, step: i32) -> Result<(u32, i32), u8> {
    let readings = before.in_range() && after.in_range();
    let steps = -LONGEST_STEP..=LONGEST_STEP;
    if !readings || set_point > MOST_MILLIVOLTS || !steps.contains(&step) || step == 0 {
        return Err(16);
    }
    let step = match after.power() >= before.power() {
        true => step,
        false => -step,
    };
    Ok(match set_point.checked_add_signed(step) {
        // Below 0.
        None => (0, -step),
        Some(moved) if moved > MOST_MILLIVOLTS => (MOST_MILLIVOLTS, -step),
        Some(moved) => (moved, step),
    })
}
