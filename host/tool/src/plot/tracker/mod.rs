//! A walk on a panel's curve as a picture: the curve with the walk on it, and under it
//! the set point from call to call.

mod calls;
mod panel;
mod signs;

use super::svg::Svg;
use super::{heading, legend, GAP, WIDTH};
use crate::track::{millivolts, Crossing, Curve, Peak, Walk};
use crate::words::count;
use ems::MOST_MILLIVOLTS;

/// Room for a name over a panel.
const NAME: f64 = 20.0;

/// What is drawn.
pub struct Tracked<'a> {
    pub curve: &'a Curve,
    pub peak: Peak,
    pub walk: &'a Walk,
    pub crossing: Option<Crossing>,
}

impl Tracked<'_> {
    /// The set points that are two steps from the peak, as far as there are such.
    fn around(&self) -> (u32, u32) {
        let (peak, room) = (self.peak.set_point, 2 * self.walk.length());
        let high = peak.saturating_add(room).min(MOST_MILLIVOLTS);
        (peak.saturating_sub(room), high)
    }

    /// What is said of them.
    fn around_said(&self) -> String {
        let (low, high) = self.around();
        let (low, high) = (millivolts(low), millivolts(high));
        format!("two steps around the peak, {low} to {high}")
    }

    /// What is said of the peak.
    fn peak_said(&self) -> String {
        format!("peak, {}", millivolts(self.peak.set_point))
    }
}

/// Draws a walk under a title; what is told of it goes to readers that don't see.
pub fn draw(tracked: &Tracked, title: &str, told: &str) -> String {
    let walk = tracked.walk;
    let calls = count(walk.calls() as u64, "call");
    let (start, length) = (walk.first().set_point, walk.length());
    let (start, length) = (millivolts(start), millivolts(length));
    let said = format!("{calls} from {start} in steps of {length}");
    let mut svg = Svg::new();
    heading(&mut svg, title, &said);
    svg.description(told);
    let y = legend::rows(&mut svg, signs::all(walk), 46.0) + GAP;
    let y = panel::draw(&mut svg, tracked, y + NAME);
    let y = calls::draw(&mut svg, tracked, y + NAME + GAP);
    svg.finish(WIDTH, y + GAP)
}
