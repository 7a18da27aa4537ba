//! A flight as a picture, its books, and a walk on a panel's curve. All are black and
//! white: what differs, differs in shape, pattern or place.

mod axis;
mod beacons;
pub mod books;
mod dense;
mod edges;
mod ends;
mod events;
mod layout;
mod legend;
mod list;
mod marks;
mod modes;
mod modules;
mod record;
mod scale;
mod svg;
mod tension;
pub mod tracker;
mod view;

pub use record::Record;
pub use view::View;

use crate::words::{clock, count};
use events::Events;
use svg::{cut, width, Align, Svg};

/// The picture's width, and where its panels begin and end in it.
const WIDTH: f64 = 1000.0;
const LEFT: f64 = 92.0;
const RIGHT: f64 = 890.0;

/// The space between two panels.
const GAP: f64 = 14.0;

/// Draws a part of a flight, or all of it, under a title.
pub fn draw(view: &View, title: &str) -> String {
    let mut svg = Svg::new();
    head(&mut svg, view, title);
    let y = legend::draw(&mut svg, view, 46.0) + GAP;

    let behind = svg.here();
    let events = Events::of(view);
    let (top, y) = modes::draw(&mut svg, view, y);
    let y = tension::draw(&mut svg, view, y + GAP) + GAP;
    let marks = events.draw(&mut svg, view, y);
    let y = modules::draw(&mut svg, view, marks + GAP) + GAP;
    let bottom = beacons::draw(&mut svg, view, y);
    let mut shade = Svg::new();
    modes::shade(&mut shade, view, top, bottom);
    events.stems(&mut shade, view, marks, bottom);
    svg.insert(behind, shade);
    let y = axis::draw(&mut svg, view, top, bottom);
    let y = list::draw(&mut svg, &events, y + 2.0 * GAP);
    svg.finish(WIDTH, y + GAP)
}

/// The title, and how long the flight is.
fn head(svg: &mut Svg, view: &View, title: &str) {
    let (frames, end) = (
        count(view.record.frames, "frame"),
        clock(view.record.seconds),
    );
    let said = match view.is_whole() {
        true => format!("{frames}, {end}"),
        false => format!("{} of {end}", view::span(view.from, view.to)),
    };
    heading(svg, title, &said);
}

/// A title, and what is said beside it.
fn heading(svg: &mut Svg, title: &str, said: &str) {
    let room = RIGHT - LEFT - width(said, 12) - GAP;
    svg.title(title);
    svg.text(LEFT, 26.0, 18, Align::Start, &cut(title, 18, room));
    svg.text(RIGHT, 26.0, 12, Align::End, said);
}
