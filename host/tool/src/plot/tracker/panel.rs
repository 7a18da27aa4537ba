//! The panel's power over the voltage, its current behind that, and the set points that
//! the walk came to.

use super::Tracked;
use crate::plot::layout::groups;
use crate::plot::scale::Scale;
use crate::plot::svg::{polyline, Svg};
use crate::plot::{edges, LEFT, RIGHT};
use crate::track::{millivolts, milliwatts, Point};
use crate::words::{count, thousands};
use ems::MOST_MILLIVOLTS;
use std::collections::BTreeMap;

const HEIGHT: f64 = 260.0;

/// The radius of a set point's circle.
pub const RADIUS: f64 = 3.5;

/// So many places of the curve are enough for its line.
const PLACES: u32 = 400;

/// What is left free over the curves.
const FREE: f64 = 1.1;

/// A set point that the walk came to.
struct Visit {
    point: Point,
    times: u64,
    /// Also since it crossed the peak.
    since: bool,
}

/// The panel; gives where it ends.
pub fn draw(svg: &mut Svg, tracked: &Tracked, top: f64) -> f64 {
    let (curve, peak) = (tracked.curve, tracked.peak);
    let visits = visits(tracked);
    let highest = visits.last().map_or(0, |visit| visit.point.set_point);
    let end = curve.end().min(MOST_MILLIVOLTS).max(highest).max(1);
    let places = (0..=end).step_by((end / PLACES).max(1) as usize);
    let places: Vec<u32> = places.chain([end]).collect();
    let most = places.iter().map(|&volts| curve.current(volts));
    let most = FREE * most.fold(1.0, f64::max);
    let bottom = top + HEIGHT;
    let x = Scale::new((0.0, f64::from(end)), (LEFT, RIGHT));
    let power = (FREE * peak.milliwatts).max(1.0);
    let power = Scale::new((0.0, power), (bottom, top));
    let current = Scale::new((0.0, most), (bottom, top));

    around(svg, tracked, &x, top);
    edges::left(svg, &power, "mW");
    edges::right(svg, &current, "mA");
    let line = |height: &dyn Fn(u32) -> f64| {
        let points = places
            .iter()
            .map(|&volts| (x.at(f64::from(volts)), height(volts)));
        polyline(&points.collect::<Vec<(f64, f64)>>())
    };
    let amperes = line(&|volts| current.at(curve.current(volts)));
    svg.path(&amperes, "stem", "the panel's current");
    let watts = line(&|volts| power.at(curve.power(volts)));
    svg.path(&watts, "curve", "the panel's power");
    for group in groups(&visits, |visit| x.at(visit.x()), 2.0 * RADIUS) {
        let Some(first) = group.first() else { continue };
        let (x, y) = (x.at(first.x()), power.at(first.point.milliwatts()));
        let class = match group.iter().any(|visit| visit.since) {
            true => "solid",
            false => "box",
        };
        svg.circle(x, y, RADIUS, class, &about(group));
    }
    edges::under(svg, &x, "the panel's voltage in millivolts", (top, bottom))
}

/// The peak, and behind it what is two steps from it.
fn around(svg: &mut Svg, tracked: &Tracked, x: &Scale, top: f64) {
    let (low, high) = tracked.around();
    let [low, high, peak] =
        [low, high, tracked.peak.set_point].map(|set_point| x.at(f64::from(set_point)));
    let about = tracked.around_said();
    svg.rect(low, top, high - low, HEIGHT, "low-light", &about);
    let line = polyline(&[(peak, top), (peak, top + HEIGHT)]);
    svg.path(&line, "ascend", &tracked.peak_said());
    let power = milliwatts(tracked.peak.milliwatts);
    edges::name(svg, peak, top, &format!("{}, {power}", tracked.peak_said()));
}

/// Each set point once, in their order.
fn visits(tracked: &Tracked) -> Vec<Visit> {
    let crossed = tracked.crossing.map(|crossing| crossing.call);
    let mut visits: BTreeMap<u32, Visit> = BTreeMap::new();
    for (call, &point) in tracked.walk.points.iter().enumerate() {
        let visit = visits.entry(point.set_point).or_insert(Visit {
            point,
            times: 0,
            since: false,
        });
        visit.times += 1;
        visit.since |= crossed.is_some_and(|crossed| call >= crossed);
    }
    visits.into_values().collect()
}

impl Visit {
    fn x(&self) -> f64 {
        f64::from(self.point.set_point)
    }
}

/// What is said of set points that share a circle.
fn about(group: &[Visit]) -> String {
    let times = count(group.iter().map(|visit| visit.times).sum(), "time");
    let ends = [&group[0], &group[group.len() - 1]].map(|visit| visit.point);
    let [low, high] = ends.map(|point| millivolts(point.set_point));
    match group.len() as u64 {
        1 => {
            let current = thousands(u64::from(ends[0].reading.milliamperes));
            let power = milliwatts(ends[0].milliwatts());
            format!("{low}, {current} mA, {power}: {times}")
        }
        several => {
            let several = count(several, "set point");
            format!("{several}, {low} to {high}: {times}")
        }
    }
}
