//! The tension, and the two thresholds it is judged by.

use super::dense::{band, COLUMNS};
use super::record::Stretch;
use super::svg::{short, Align, Svg};
use super::view::View;
use super::{LEFT, RIGHT};
use crate::words::thousands;
use std::fmt::Write;

const HEIGHT: f64 = 190.0;

/// Room for a label.
const LABEL: f64 = 14.0;

/// Millivolts between two lines of the grid, the first that gives few enough.
const STEPS: [u16; 4] = [100, 200, 500, 1_000];
const LINES: u16 = 8;

/// From millivolts to places.
struct Height {
    low: u16,
    high: u16,
    top: f64,
    bottom: f64,
}

impl Height {
    fn y(&self, millivolts: u16) -> f64 {
        let part = f64::from(millivolts) - f64::from(self.low);
        self.bottom - (self.bottom - self.top) * part / f64::from(self.high - self.low)
    }
}

/// A value that is drawn over time.
struct Curve {
    name: &'static str,
    class: &'static str,
    stretches: Vec<Stretch<u16>>,
}

impl Curve {
    /// Whether a line would be a smear.
    fn is_dense(&self) -> bool {
        self.stretches.len() > COLUMNS
    }
}

/// The panel; gives where it ends.
pub fn draw(svg: &mut Svg, view: &View, y: f64) -> f64 {
    let curves = curves(view);
    let height = height(&curves, y, y + HEIGHT);
    grid(svg, &height);
    // A line on a band has a white rim.
    let rimmed = curves.iter().any(Curve::is_dense);
    for curve in &curves {
        line(svg, view, &height, curve, rimmed);
    }
    labels(svg, &height, &curves);
    svg.line(LEFT, height.bottom, RIGHT, height.bottom, "thin");
    height.bottom
}

/// The tension, where there is a reading, and over it the thresholds.
fn curves(view: &View) -> [Curve; 3] {
    let curve = |name, class, track| {
        let mut stretches = view.stretches(track);
        stretches.retain(|stretch| stretch.value > 0);
        Curve {
            name,
            class,
            stretches,
        }
    };
    let record = view.record;
    [
        curve("tension", "curve", &record.tension),
        curve("ascend", "ascend", &record.ascend),
        curve("descend", "descend", &record.descend),
    ]
}

/// The range that holds the tension and the thresholds.
fn height(curves: &[Curve], top: f64, bottom: f64) -> Height {
    let stretches = curves.iter().flat_map(|curve| &curve.stretches);
    let values: Vec<u16> = stretches.map(|stretch| stretch.value).collect();
    let low = values.iter().min().copied().unwrap_or(0);
    let high = values.iter().max().copied().unwrap_or(0);
    Height {
        low: low.saturating_sub(50) / 100 * 100,
        high: (high + 150) / 100 * 100,
        top,
        bottom,
    }
}

/// Faint lines with their millivolts.
fn grid(svg: &mut Svg, height: &Height) {
    let range = height.high - height.low;
    let step = STEPS.iter().copied().find(|step| range / step <= LINES);
    let step = step.unwrap_or(STEPS[STEPS.len() - 1]);
    let first = height.low.div_ceil(step) * step;
    for millivolts in (first..=height.high).step_by(usize::from(step)) {
        let y = height.y(millivolts);
        svg.line(LEFT, y, RIGHT, y, "faint");
        let label = format!("{} mV", thousands(u64::from(millivolts)));
        svg.text(LEFT - 8.0, y + 4.0, 12, Align::End, &label);
    }
}

/// A line from value to value, or a band from the least to the greatest.
fn line(svg: &mut Svg, view: &View, height: &Height, curve: &Curve, rimmed: bool) {
    if curve.is_dense() {
        let about = format!("{}, the least to the greatest", curve.name);
        let stretches = curve.stretches.iter();
        let stretches =
            stretches.map(|one| (view.x(one.from), view.x(one.to), height.y(one.value)));
        svg.path(&band(stretches), "band", &about);
        return;
    }
    let steps = steps(view, height, &curve.stretches);
    if rimmed {
        svg.path(&steps, "rim", "");
    }
    svg.path(&steps, curve.class, curve.name);
}

/// A line that steps from value to value.
fn steps(view: &View, height: &Height, stretches: &[Stretch<u16>]) -> String {
    let mut path = String::new();
    for stretch in stretches {
        let (x1, x2) = (short(view.x(stretch.from)), short(view.x(stretch.to)));
        let y = short(height.y(stretch.value));
        // Writing to a string can't fail.
        let _ = match path.is_empty() {
            true => write!(path, "M{x1} {y}H{x2}"),
            false => write!(path, "V{y}H{x2}"),
        };
    }
    path
}

/// The last values, beside the panel.
fn labels(svg: &mut Svg, height: &Height, curves: &[Curve]) {
    let mut labels: Vec<(f64, String)> = curves
        .iter()
        .filter_map(|curve| {
            let last = curve.stretches.last()?.value;
            let text = format!("{} {}", curve.name, thousands(u64::from(last)));
            Some((height.y(last) + 4.0, text))
        })
        .collect();
    labels.sort_by(|a, b| a.0.total_cmp(&b.0));
    let mut free = f64::MIN;
    for (y, text) in labels {
        let y = y.max(free);
        svg.beside(y, &text);
        free = y + LABEL;
    }
}
