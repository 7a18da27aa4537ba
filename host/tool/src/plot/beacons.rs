//! Beacons: ticks, a complete one tall, a basic one short, an extended one tall with a
//! flag, and bands where they are too close to tell.

use super::svg::{short, Align, Svg};
use super::view::{span, View};
use super::{LEFT, RIGHT};
use crate::words::{clock, count, thousands};
use ems::Beacon;

const HEIGHT: f64 = 26.0;

/// Ticks that are closer are a band.
const APART: f64 = 3.0;

/// A flag's width and height.
const FLAG: (f64, f64) = (5.0, 7.0);

/// How tall a beacon's tick is.
pub fn tall(beacon: Beacon) -> f64 {
    match beacon {
        Beacon::Basic => HEIGHT / 2.0,
        Beacon::Complete | Beacon::Extended => HEIGHT,
    }
}

/// How close two of them are a band: a flag has room between them.
fn apart(beacon: Beacon) -> f64 {
    match beacon {
        Beacon::Basic | Beacon::Complete => APART,
        Beacon::Extended => FLAG.0 + 1.0,
    }
}

/// When beacons of a kind are due, of what is seen.
fn times(view: &View, kind: Beacon) -> Vec<u64> {
    let due = view.record.beacons.iter().filter(|beacon| beacon.1 == kind);
    due.map(|beacon| beacon.0)
        .filter(|&at| view.shows(at))
        .collect()
}

/// Whether an extended one is due in what is seen.
pub fn any_extended(view: &View) -> bool {
    !times(view, Beacon::Extended).is_empty()
}

/// The lane; gives where it ends.
pub fn draw(svg: &mut Svg, view: &View, y: f64) -> f64 {
    let bottom = y + HEIGHT;
    svg.text(LEFT - 8.0, bottom - 8.0, 12, Align::End, "beacons");
    let mut said = Vec::new();
    for kind in Beacon::ALL {
        let times = times(view, kind);
        let together = |a: &u64, b: &u64| view.x(*b) - view.x(*a) < apart(kind);
        for group in times.chunk_by(together) {
            mark(svg, view, bottom, kind, group);
        }
        if !times.is_empty() {
            said.insert(0, format!("{} {kind}", thousands(times.len() as u64)));
        }
    }
    for (line, text) in said.iter().rev().enumerate() {
        let y = bottom - 2.0 - 13.0 * line as f64;
        svg.beside(y, text);
    }
    svg.line(LEFT, bottom, RIGHT, bottom, "thin");
    bottom
}

/// One tick, or a band of many.
fn mark(svg: &mut Svg, view: &View, bottom: f64, kind: Beacon, times: &[u64]) {
    let tall = tall(kind);
    match times {
        [] => {}
        [one] => {
            let (x, top) = (view.x(*one), bottom - tall);
            let about = format!("{kind} beacon, {}", clock(*one));
            match kind {
                Beacon::Extended => svg.path(&flagged(x, bottom, top), "solid", &about),
                _ => svg.path(&tick(x, bottom, top), "thin", &about),
            }
        }
        [first, .., last] => {
            let (x, end) = (view.x(*first), view.x(*last));
            let beacons = count(times.len() as u64, &format!("{kind} beacon"));
            let about = format!("{beacons}, {}", span(*first, *last));
            svg.rect(x, bottom - tall, end - x, tall, "many", &about);
            if kind == Beacon::Extended {
                svg.path(&flagged(x, bottom, bottom - tall), "solid", &about);
            }
        }
    }
}

/// The path of a tick.
pub fn tick(x: f64, bottom: f64, top: f64) -> String {
    let x = short(x);
    format!("M{x} {bottom}V{top}")
}

/// The path of a tick with a flag, which flies to the left at the right edge.
pub fn flagged(x: f64, bottom: f64, top: f64) -> String {
    let (wide, high) = FLAG;
    let tip = short(if x + wide > RIGHT { x - wide } else { x + wide });
    let (x, middle, below) = (short(x), short(top + high / 2.0), short(top + high));
    format!("{}L{tip} {middle}L{x} {below}", tick(x, bottom, top))
}
