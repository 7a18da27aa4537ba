//! The ends of the modules' requests: wedges that run down to where they come.

use super::layout::groups;
use super::record::Stretch;
use super::svg::{polygon, Svg};
use super::view::{span, View};
use super::RIGHT;
use crate::words::{clock, count};
use ems::Module;

/// A row of wedges, how tall one is, and how narrow at least.
const ROW: f64 = 11.0;
const TALL: f64 = 8.0;
const NARROW: f64 = 4.0;

/// The stretches in which a module's end is running, each with the second it comes.
fn running(view: &View, module: Module) -> Vec<Stretch<u64>> {
    let track = &view.record.ends[usize::from(module.number())];
    let mut running = Vec::new();
    for Stretch { from, to, value } in view.stretches(track) {
        running.extend(value.map(|value| Stretch { from, to, value }));
    }
    running
}

/// Whether an end is running in what is seen.
pub fn any(view: &View) -> bool {
    let mut all = Module::ALL.into_iter();
    all.any(|module| !running(view, module).is_empty())
}

/// Wedges for the time left to the ends, if some are running; gives where they end.
/// What begins too close to tell apart is one wedge, down to the last one's end.
pub fn draw(svg: &mut Svg, view: &View, module: Module, y: f64) -> f64 {
    let running = running(view, module);
    for group in groups(&running, |one| view.x(one.from), NARROW) {
        let (Some(first), Some(last)) = (group.first(), group.last()) else {
            continue;
        };
        let height = |second: u64| {
            let second = second
                .clamp(view.from, view.to)
                .clamp(first.from, last.value);
            TALL * (last.value - second) as f64 / (last.value - first.from) as f64
        };
        let x = view.x(first.from).min(RIGHT - NARROW);
        let width = (view.x(last.to) - x).max(NARROW);
        let wedge = wedge(x, y + TALL, width, height(first.from), height(last.to));
        svg.path(&wedge, "box", &about(module, group, first.from, last));
    }
    if running.is_empty() {
        y
    } else {
        y + ROW
    }
}

/// What is said of ends that begin together, from a second on to the last one.
fn about(module: Module, group: &[Stretch<u64>], from: u64, last: &Stretch<u64>) -> String {
    let (end, running) = (clock(last.value), span(from, last.to));
    match group.len() as u64 {
        1 => format!("{module}'s end at {end}, running {running}"),
        times => {
            let times = count(times, "time");
            format!("{module}'s end set {times}, the last at {end}, running {running}")
        }
    }
}

/// A wedge on a place: as tall as the time that is left at its begin and at its end.
pub fn wedge(x: f64, bottom: f64, width: f64, begin: f64, end: f64) -> String {
    polygon(&[
        (x, bottom),
        (x, bottom - begin),
        (x + width, bottom - end),
        (x + width, bottom),
    ])
}
