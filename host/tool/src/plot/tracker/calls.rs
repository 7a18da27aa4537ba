//! The set point from call to call.

use super::Tracked;
use crate::plot::dense::{band, COLUMNS};
use crate::plot::marks::mark;
use crate::plot::scale::Scale;
use crate::plot::svg::{polyline, Svg};
use crate::plot::{edges, LEFT, RIGHT};
use crate::track::Stay;
use crate::words::thousands;

const HEIGHT: f64 = 220.0;

/// What is left free over and under the line, as a part of what it takes.
const FREE: f64 = 0.05;

/// A refused call's mark.
pub const RADIUS: f64 = 8.0;

/// The panel; gives where it ends.
pub fn draw(svg: &mut Svg, tracked: &Tracked, top: f64) -> f64 {
    let (walk, bottom) = (tracked.walk, top + HEIGHT);
    let x = Scale::new((0.0, walk.calls() as f64), (LEFT, RIGHT));
    let y = height(tracked, top, bottom);
    let (low, high) = tracked.around();
    let [low, high, peak] =
        [low, high, tracked.peak.set_point].map(|set_point| y.at(f64::from(set_point)));
    let about = tracked.around_said();
    svg.rect(LEFT, high, RIGHT - LEFT, low - high, "low-light", &about);
    edges::left(svg, &y, "mV");
    let line = polyline(&[(LEFT, peak), (RIGHT, peak)]);
    svg.path(&line, "ascend", &tracked.peak_said());
    svg.beside(peak + 4.0, "peak");
    if let Some(crossing) = tracked.crossing {
        let about = format!("call {} crosses the peak", thousands(crossing.call as u64));
        let x = x.at(crossing.call as f64);
        let line = polyline(&[(x, top), (x, bottom)]);
        svg.path(&line, "thin", &about);
        edges::name(svg, x, top, &about);
    }
    set_points(svg, tracked, &x, &y);
    edges::under(svg, &x, "calls", (top, bottom))
}

/// A height for every set point of the walk, and for those around the peak.
fn height(tracked: &Tracked, top: f64, bottom: f64) -> Scale {
    let stay = Stay::since(0, tracked.walk, &tracked.peak);
    let (low, high) = tracked.around();
    let (low, high) = (stay.low.min(low), stay.high.max(high));
    let (low, high) = (f64::from(low), f64::from(high).max(1.0));
    let free = FREE * (high - low);
    Scale::new(((low - free).max(0.0), high + free), (bottom, top))
}

/// A line from call to call, or a band from the lowest to the highest; at its end the
/// call that was refused.
fn set_points(svg: &mut Svg, tracked: &Tracked, x: &Scale, y: &Scale) {
    let walk = tracked.walk;
    let places = walk.points.iter().enumerate();
    let places = places.map(|(call, point)| (x.at(call as f64), y.at(f64::from(point.set_point))));
    if walk.calls() > COLUMNS {
        let about = "the set point, the lowest to the highest";
        svg.path(&band(places.map(|(x, y)| (x, x, y))), "band", about);
    } else {
        let places: Vec<(f64, f64)> = places.collect();
        svg.path(&polyline(&places), "curve", "the set point");
    }
    if let Some(refused) = walk.refused {
        let y = y.at(f64::from(walk.last().set_point));
        let call = thousands(u64::from(refused.call));
        let about = format!("call {call} is refused: {}", refused.answer);
        mark(svg, RIGHT - RADIUS, y, RADIUS, refused.answer, &about);
    }
}
