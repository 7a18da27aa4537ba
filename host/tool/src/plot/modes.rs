//! The mode as bands: a strip with names, and a lighter shade behind everything.

use super::layout::{groups, spread, Wish};
use super::record::Stretch;
use super::svg::{width, Align, Svg};
use super::view::{span, View};
use super::{LEFT, RIGHT};
use crate::tables;
use crate::words::count;
use ems::Mode;

const HEIGHT: f64 = 22.0;

/// A stretch that would be narrower is drawn as wide as this.
const NARROW: f64 = 5.0;

/// The height of a row of names over the strip, for what has no room in it.
const NAMES: f64 = 20.0;
const SIZE: u32 = 12;

/// What a mode is filled with, in the strip and behind everything.
pub fn fill(mode: u8) -> (&'static str, Option<&'static str>) {
    match Mode::of(mode) {
        Some(Mode::DeployWait) => ("wait", Some("wait-light")),
        Some(Mode::Recovery) => ("low", Some("low-light")),
        Some(Mode::Safe) | None => ("high", None),
    }
}

/// The strip; gives where its bands begin and end.
pub fn draw(svg: &mut Svg, view: &View, y: f64) -> (f64, f64) {
    let stretches = view.stretches(&view.record.mode);
    let (wide, narrow): (Vec<_>, Vec<_>) =
        stretches.iter().partition(|stretch| is_wide(view, stretch));
    let outside = nameless(view, &stretches);
    let top = if outside.is_empty() { y } else { y + NAMES };
    svg.text(LEFT - 8.0, top + 15.0, SIZE, Align::End, "mode");
    for stretch in wide {
        band(svg, view, stretch, top);
    }
    // There may be thousands: those at one place are drawn together.
    for together in groups(&narrow, |stretch| middle(view, stretch), NARROW) {
        let x = middle(view, together[0]) - NARROW / 2.0;
        sliver(svg, x.clamp(LEFT, RIGHT - NARROW), together, top);
    }
    names(svg, view, &outside, top);
    svg.line(LEFT, top, RIGHT, top, "thin");
    svg.line(LEFT, top + HEIGHT, RIGHT, top + HEIGHT, "thin");
    (top, top + HEIGHT)
}

/// Where a stretch begins, and how wide it is.
fn extent(view: &View, stretch: &Stretch<u8>) -> (f64, f64) {
    let x = view.x(stretch.from);
    (x, view.x(stretch.to) - x)
}

/// Where the middle of a stretch is.
fn middle(view: &View, stretch: &Stretch<u8>) -> f64 {
    let (x, width) = extent(view, stretch);
    x + width / 2.0
}

fn is_wide(view: &View, stretch: &Stretch<u8>) -> bool {
    extent(view, stretch).1 >= NARROW
}

/// The room that a mode's name takes in the strip.
fn room(mode: u8) -> f64 {
    width(&tables::mode(mode), SIZE) + 10.0
}

/// What is said of a stretch.
fn about(stretch: &Stretch<u8>) -> String {
    let (mode, span) = (tables::mode(stretch.value), span(stretch.from, stretch.to));
    format!("{mode}, {span}")
}

/// A stretch that is wide enough, with its name if that has room.
fn band(svg: &mut Svg, view: &View, stretch: &Stretch<u8>, y: f64) {
    let (x, width) = extent(view, stretch);
    svg.rect(x, y, width, HEIGHT, fill(stretch.value).0, &about(stretch));
    svg.line(x, y, x, y + HEIGHT, "thin");
    let wide = room(stretch.value);
    if width > wide {
        let (x, tall) = (middle(view, stretch), HEIGHT - 6.0);
        svg.rect(x - wide / 2.0, y + 3.0, wide, tall, "box", &about(stretch));
        svg.label(x, y + 15.0, SIZE, &tables::mode(stretch.value));
    }
}

/// Stretches that are too narrow to be drawn as they are: so wide that they can
/// be seen, and over each other where modes share the place.
fn sliver(svg: &mut Svg, x: f64, stretches: &[&Stretch<u8>], y: f64) {
    let of = |mode: Mode| -> Vec<&Stretch<u8>> {
        let own = stretches.iter().filter(|one| one.value == mode.number());
        own.copied().collect()
    };
    let modes = Mode::ALL.map(of);
    let modes: Vec<&Vec<&Stretch<u8>>> = modes.iter().filter(|own| !own.is_empty()).collect();
    let height = HEIGHT / modes.len() as f64;
    for (at, own) in modes.iter().enumerate() {
        let (first, last) = (own[0], own[own.len() - 1]);
        let about = match own.len() {
            1 => about(first),
            times => {
                let (mode, times) = (tables::mode(first.value), count(times as u64, "time"));
                format!("{mode} {times}, {}", span(first.from, last.to))
            }
        };
        let class = format!("{} edged", fill(first.value).0);
        svg.rect(x, y + height * at as f64, NARROW, height, &class, &about);
    }
}

/// The longest stretch of each mode whose name has no room in it.
fn nameless(view: &View, stretches: &[Stretch<u8>]) -> Vec<Stretch<u8>> {
    let longest = Mode::ALL.map(|mode| {
        let of_mode = stretches.iter().filter(|one| one.value == mode.number());
        // The first, if several are.
        of_mode
            .rev()
            .max_by(|a, b| extent(view, a).1.total_cmp(&extent(view, b).1))
    });
    let mut nameless: Vec<Stretch<u8>> = longest.into_iter().flatten().copied().collect();
    nameless.retain(|one| extent(view, one).1 <= room(one.value));
    nameless.sort_by_key(|one| one.from);
    nameless
}

/// Names over the strip, each with a line to its stretch.
fn names(svg: &mut Svg, view: &View, stretches: &[Stretch<u8>], y: f64) {
    let wish = |stretch: &Stretch<u8>| Wish {
        middle: middle(view, stretch),
        width: room(stretch.value),
    };
    let wishes: Vec<Wish> = stretches.iter().map(wish).collect();
    let places = spread(&wishes, LEFT, RIGHT);
    for ((stretch, wish), x) in stretches.iter().zip(&wishes).zip(places) {
        let name = tables::mode(stretch.value);
        svg.text(x, y - 9.0, SIZE, Align::Middle, &name);
        // From the name's nearest letter.
        let half = width(&name, SIZE) / 2.0 - 6.0;
        let from = wish.middle.clamp(x - half, x + half);
        let to = wish.middle.clamp(LEFT + NARROW / 2.0, RIGHT - NARROW / 2.0);
        svg.line(from, y - 6.0, to, y, "thin");
    }
}

/// The shade behind everything from a top to a bottom. What is too narrow to be
/// seen beside the one before it is left out.
pub fn shade(svg: &mut Svg, view: &View, top: f64, bottom: f64) {
    let mut free = LEFT;
    for stretch in view.stretches(&view.record.mode) {
        let (x, width) = extent(view, &stretch);
        let (from, to) = (x.max(free), (x + width.max(1.0)).min(RIGHT));
        if let Some(shade) = fill(stretch.value).1.filter(|_| to - from >= 1.0) {
            svg.rect(from, top, to - from, bottom - top, shade, "");
            free = to;
        }
    }
}
