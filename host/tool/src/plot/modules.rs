//! A lane for each module: requested, on or failed, and under that the time left to
//! its end, the shorts it saw and the tries it has left.

use super::ends;
use super::layout::groups;
use super::record::Stretch;
use super::svg::{polygon, Align, Svg};
use super::view::{span, Bar, View};
use super::{LEFT, RIGHT};
use crate::words::{count, list};
use ems::Module;

/// A lane without shorts, its outer bar, and how much smaller the inner one is.
const LANE: f64 = 25.0;
const BAR: f64 = 17.0;
const INSET: f64 = 3.5;

/// A row of arrowheads, and from one to the next.
const ARROWS: f64 = 8.0;
const ARROW: f64 = 7.0;

/// A row of digits, and the room that one takes.
const DIGITS: f64 = 11.0;
const DIGIT: f64 = 8.0;

/// The lanes; gives where they end.
pub fn draw(svg: &mut Svg, view: &View, y: f64) -> f64 {
    let lanes = Module::ALL.into_iter();
    lanes.fold(y, |top, module| lane(svg, view, module, top))
}

/// A module's lane; gives where it ends.
fn lane(svg: &mut Svg, view: &View, module: Module, top: f64) -> f64 {
    svg.text(LEFT - 8.0, top + 17.0, 12, Align::End, module.name());
    let is = |mask: u8| mask & module.bit() != 0;
    for state in [State::Requested, State::Failed, State::On] {
        let track = match state {
            State::Requested => &view.record.requested,
            State::Failed => &view.record.failed,
            State::On => &view.record.on,
        };
        for bar in view.bars(track, is) {
            let (x, about) = (view.x(bar.from).min(RIGHT - 1.0), said(module, state, &bar));
            state.draw(svg, x, top + 4.0, view.x(bar.to) - x, &about);
        }
    }
    let mut bottom = top + LANE;
    bottom = ends::draw(svg, view, module, bottom);
    bottom = shorts(svg, view, module, bottom);
    bottom = tries(svg, view, module, bottom);
    svg.line(LEFT, bottom, RIGHT, bottom, "faint");
    bottom
}

/// What a bar says of a module.
#[derive(Clone, Copy)]
pub enum State {
    Requested,
    On,
    Failed,
}

impl State {
    fn name(self) -> &'static str {
        match self {
            State::Requested => "requested",
            State::On => "on",
            State::Failed => "failed",
        }
    }

    /// The bar: a frame if requested, in which the others stand.
    pub fn draw(self, svg: &mut Svg, x: f64, y: f64, width: f64, about: &str) {
        let inner = BAR - 2.0 * INSET;
        match self {
            State::Requested => svg.rect(x, y, width, BAR, "box", about),
            State::On => svg.rect(x, y + INSET, width, inner, "solid", about),
            State::Failed => svg.rect(x, y + INSET, width, inner, "failed", about),
        }
    }
}

fn said(module: Module, state: State, bar: &Bar) -> String {
    let times = match bar.times {
        1 => String::new(),
        times => format!(" {}", count(times, "time")),
    };
    format!(
        "{module} {}{times}, {}",
        state.name(),
        span(bar.from, bar.to)
    )
}

/// Arrowheads for the shorts, if there were any; gives where they end.
fn shorts(svg: &mut Svg, view: &View, module: Module, y: f64) -> f64 {
    let seen = view.bars(&view.record.shorts, |mask| mask & module.bit() != 0);
    // Those whose arrowheads would touch are one group.
    let close = |a: &Bar, b: &Bar| view.x(b.from) - view.x(a.to) < ARROW;
    for group in seen.chunk_by(close) {
        let (Some(first), Some(last)) = (group.first(), group.last()) else {
            continue;
        };
        let (x, end) = (view.x(first.from), view.x(last.to));
        let mut path = String::new();
        let arrows = ((end - x) / ARROW) as usize;
        for at in 0..=arrows {
            let middle = x + ARROW * at as f64;
            path += &arrow(
                middle.clamp(LEFT + ARROW / 2.0, RIGHT - ARROW / 2.0),
                y + 5.0,
            );
        }
        let times: u64 = group.iter().map(|bar| bar.times).sum();
        let shorts = match times {
            1 => "short".to_string(),
            times => format!("short {}", count(times, "time")),
        };
        svg.path(
            &path,
            "solid",
            &format!("{module} {shorts}, {}", span(first.from, last.to)),
        );
    }
    if seen.is_empty() {
        y
    } else {
        y + ARROWS
    }
}

/// An arrowhead over a place.
pub fn arrow(x: f64, bottom: f64) -> String {
    polygon(&[(x - 2.5, bottom), (x, bottom - 6.0), (x + 2.5, bottom)])
}

/// Digits for the tries left, where some are spent; gives where they end.
fn tries(svg: &mut Svg, view: &View, module: Module, y: f64) -> f64 {
    let track = &view.record.tries[usize::from(module.number())];
    let mut left: Vec<Stretch<u16>> = Vec::new();
    for Stretch { from, to, value } in view.stretches(track) {
        left.extend(value.map(|value| Stretch { from, to, value }));
    }
    for group in groups(&left, |one| view.x(one.from), DIGIT) {
        let (Some(first), Some(last)) = (group.first(), group.last()) else {
            continue;
        };
        let (x, end) = (view.x(first.from).min(RIGHT - DIGIT), view.x(last.to));
        let mut spent: Vec<String> = group.iter().map(|one| one.value.to_string()).collect();
        spent.dedup();
        spent.truncate(5);
        let about = format!(
            "{module} tries left: {}, {}",
            list(&spent),
            span(first.from, last.to)
        );
        let least = group.iter().map(|one| one.value).min().unwrap_or_default();
        svg.note(x, y + 6.5, 11, &least.to_string(), &about);
        if end > x + DIGIT {
            svg.line(x + DIGIT, y + 2.5, end, y + 2.5, "thin");
        }
    }
    if left.is_empty() {
        y
    } else {
        y + DIGITS
    }
}
