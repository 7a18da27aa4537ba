//! Books as a picture: a bar for each module, of its seconds on, failed and off.

use super::legend::{self, sign, Group};
use super::scale::Scale;
use super::svg::{width, Align, Svg};
use super::{edges, heading, GAP, LEFT, RIGHT, WIDTH};
use crate::books::{Books, Row};
use crate::words::{count, thousands};

/// A module's lane, and the bar in it.
const LANE: f64 = 32.0;
const BAR: f64 = 22.0;

/// A part that would be narrower is drawn as wide as this.
const NARROW: f64 = 3.0;

const SIZE: u32 = 12;

/// The parts of a bar, from the left.
#[derive(Clone, Copy)]
enum Part {
    On,
    Failed,
    Off,
}

const PARTS: [Part; 3] = [Part::On, Part::Failed, Part::Off];

impl Part {
    fn name(self) -> &'static str {
        match self {
            Part::On => "on",
            Part::Failed => "failed",
            Part::Off => "off",
        }
    }

    /// What it is filled with: on and failed, as in a flight's picture.
    fn fill(self) -> &'static str {
        match self {
            Part::On => "solid",
            Part::Failed => "failed",
            Part::Off => "box",
        }
    }

    fn seconds(self, row: &Row) -> u64 {
        match self {
            Part::On => row.on,
            Part::Failed => row.failed,
            Part::Off => row.off,
        }
    }

    /// The part of a module's bar, with its seconds where they have room.
    fn draw(self, svg: &mut Svg, row: &Row, (x, top): (f64, f64), wide: f64) {
        let (module, name, seconds) = (row.module, self.name(), self.seconds(row));
        let about = format!("{module} {name}, {}", count(seconds, "second"));
        svg.rect(x, top, wide, BAR, self.fill(), &about);
        let text = thousands(seconds);
        let room = width(&text, SIZE) + 10.0;
        if wide <= room {
            return;
        }
        let (middle, y) = (x + wide / 2.0, top + BAR / 2.0 + 4.0);
        if matches!(self, Part::Failed) {
            // No text can be read on a pattern.
            let (left, tall) = (middle - room / 2.0, BAR - 6.0);
            svg.rect(left, top + 3.0, room, tall, "box", &about);
        }
        match self {
            Part::On => svg.inverse(middle, y, SIZE, &text),
            Part::Failed | Part::Off => svg.label(middle, y, SIZE, &text),
        }
    }
}

/// Draws books under a title; what is told of them goes to readers that don't see.
pub fn draw(books: &Books, title: &str, told: &str) -> String {
    let mut svg = Svg::new();
    let ticks = count(books.ticks, "tick");
    heading(&mut svg, title, &format!("{ticks} done"));
    svg.description(told);
    let y = legend::rows(&mut svg, [signs()], 46.0) + GAP;
    svg.beside(y + 10.0, "share on");
    let top = y + GAP;
    let most = books.rows.iter().map(Row::seconds).max();
    // There is always a second to draw.
    let most = most.unwrap_or_default().max(1);
    let scale = Scale::new((0.0, most as f64), (LEFT, RIGHT));
    let lanes = books.rows.iter();
    let bottom = lanes.fold(top, |top, row| lane(&mut svg, row, &scale, top));
    let y = edges::under(&mut svg, &scale, "seconds", (top, bottom));
    svg.finish(WIDTH, y + GAP)
}

/// What the parts mean.
fn signs() -> Group {
    let signs = PARTS.map(|part| {
        let draw =
            move |svg: &mut Svg, x: f64, y: f64| svg.rect(x, y - 7.0, 20.0, 14.0, part.fill(), "");
        sign(draw, part.name())
    });
    ("Seconds:", signs.into())
}

/// A module's name, bar and share; gives where its lane ends.
fn lane(svg: &mut Svg, row: &Row, scale: &Scale, top: f64) -> f64 {
    let (bar, text) = (top + (LANE - BAR) / 2.0, top + LANE / 2.0 + 4.0);
    svg.text(LEFT - 8.0, text, SIZE, Align::End, row.module.name());
    let mut x = LEFT;
    for (part, wide) in PARTS.into_iter().zip(widths(row, scale)) {
        if part.seconds(row) > 0 {
            part.draw(svg, row, (x, bar), wide);
        }
        x += wide;
    }
    svg.beside(text, &row.share());
    top + LANE
}

/// How wide the parts are: to scale, but that none is too narrow to be seen. The widest
/// makes room for those.
fn widths(row: &Row, scale: &Scale) -> [f64; 3] {
    let to_scale = |seconds: u64| scale.at(seconds as f64) - LEFT;
    let mut widths = PARTS.map(|part| match part.seconds(row) {
        0 => 0.0,
        seconds => to_scale(seconds).max(NARROW),
    });
    let over = widths.iter().sum::<f64>() - to_scale(row.seconds());
    if let Some(widest) = widths.iter_mut().max_by(|a, b| a.total_cmp(b)) {
        *widest = (*widest - over).max(0.0);
    }
    widths
}
