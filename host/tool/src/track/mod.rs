//! The panel tracker on a panel's curve: every move is a call of the library, and what
//! is promised of it is looked at here.

mod csv;
mod curve;
mod expected;
mod line;
mod promise;
mod refused;
mod stay;
mod table;
mod told;
mod walk;

pub use curve::{Curve, Peak};
pub use promise::Promise;
pub use stay::{Crossing, Stay};
pub use table::table;
pub use told::told;
pub use walk::{Point, Walk};

use crate::words::{rounded, thousands};

/// Millivolts, for people.
pub fn millivolts(number: u32) -> String {
    format!("{} mV", thousands(u64::from(number)))
}

/// A power in milliwatts, for people.
pub fn milliwatts(number: f64) -> String {
    format!("{} mW", rounded(number, 3))
}
