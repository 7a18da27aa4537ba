//! What the shapes mean.

use super::marks::{mark, SHAPES};
use super::modes::fill;
use super::modules::{arrow, State};
use super::svg::{width, Align, Svg};
use super::view::View;
use super::{beacons, ends, LEFT, WIDTH};
use crate::tables;
use ems::{answer, Beacon, Mode};

/// A row's height, the room of a sign, and that after a text.
const ROW: f64 = 22.0;
const SIGN: f64 = 26.0;
const AFTER: f64 = 14.0;
const SIZE: u32 = 12;

/// Draws a sign at its left middle.
pub type Sign = Box<dyn Fn(&mut Svg, f64, f64)>;

/// A subject, and its signs with their meanings.
pub type Group = (&'static str, Vec<(Sign, String)>);

/// A flight's legend; gives where it ends.
pub fn draw(svg: &mut Svg, view: &View, y: f64) -> f64 {
    rows(svg, groups(view), y)
}

/// Signs in rows; gives where they end.
pub fn rows(svg: &mut Svg, groups: impl IntoIterator<Item = Group>, y: f64) -> f64 {
    let (mut x, mut y) = (LEFT, y);
    for (subject, signs) in groups {
        let wide = |text: &str| width(text, SIZE) + AFTER;
        let all: f64 = signs.iter().map(|(_, meaning)| SIGN + wide(meaning)).sum();
        if x > LEFT && x + wide(subject) + all > WIDTH {
            (x, y) = (LEFT, y + ROW);
        }
        svg.text(x, y + 4.0, SIZE, Align::Start, subject);
        x += wide(subject);
        for (sign, meaning) in signs {
            sign(svg, x, y);
            svg.text(x + SIGN, y + 4.0, SIZE, Align::Start, &meaning);
            x += SIGN + wide(&meaning);
        }
    }
    y + 8.0
}

fn groups(view: &View) -> [Group; 6] {
    [
        ("Mode:", modes()),
        ("Millivolts:", millivolts()),
        ("Module:", modules(view)),
        ("Short:", shorts()),
        ("Beacon:", due(view)),
        ("Order:", orders()),
    ]
}

/// A sign with its meaning.
pub fn sign(draw: impl Fn(&mut Svg, f64, f64) + 'static, meaning: &str) -> (Sign, String) {
    (Box::new(draw), meaning.to_string())
}

fn modes() -> Vec<(Sign, String)> {
    let modes = Mode::ALL.into_iter().map(|mode| {
        let class = format!("{} edged", fill(mode.number()).0);
        sign(
            move |svg, x, y| svg.rect(x, y - 7.0, 20.0, 14.0, &class, ""),
            mode.name(),
        )
    });
    modes.collect()
}

fn millivolts() -> Vec<(Sign, String)> {
    let line = |class: &'static str, meaning: &str| {
        sign(move |svg, x, y| svg.line(x, y, x + 20.0, y, class), meaning)
    };
    let band = |svg: &mut Svg, x: f64, y: f64| svg.rect(x, y - 5.0, 20.0, 10.0, "band", "");
    vec![
        line("curve", "tension"),
        sign(band, "least to greatest"),
        line("ascend", "ascend"),
        line("descend", "descend"),
    ]
}

fn modules(view: &View) -> Vec<(Sign, String)> {
    let bars = |states: &'static [State], meaning: &str| {
        let draw = move |svg: &mut Svg, x: f64, y: f64| {
            for state in states {
                state.draw(svg, x, y - 8.5, 20.0, "");
            }
        };
        sign(draw, meaning)
    };
    let mut signs = vec![
        bars(&[State::Requested], "requested"),
        bars(&[State::Requested, State::On], "requested and on"),
        bars(&[State::Requested, State::Failed], "requested and failed"),
        bars(&[State::Failed], "failed"),
    ];
    if ends::any(view) {
        let left = |svg: &mut Svg, x: f64, y: f64| {
            svg.path(&ends::wedge(x, y + 5.0, 20.0, 10.0, 0.0), "box", "");
        };
        signs.push(sign(left, "time left"));
    }
    signs
}

fn shorts() -> Vec<(Sign, String)> {
    let short = |svg: &mut Svg, x: f64, y: f64| svg.path(&arrow(x + 10.0, y + 3.0), "solid", "");
    let tries = |svg: &mut Svg, x: f64, y: f64| svg.text(x + 8.0, y + 4.0, 11, Align::Start, "3");
    vec![sign(short, "short"), sign(tries, "tries left")]
}

fn due(view: &View) -> Vec<(Sign, String)> {
    let tick = |beacon: Beacon| {
        let draw = move |svg: &mut Svg, x: f64, y: f64| {
            let top = y + 8.0 - 0.6 * beacons::tall(beacon);
            svg.line(x + 10.0, y + 8.0, x + 10.0, top, "thin");
        };
        sign(draw, beacon.name())
    };
    let band = |svg: &mut Svg, x: f64, y: f64| svg.rect(x, y - 7.0, 20.0, 15.0, "many", "");
    let mut signs = vec![tick(Beacon::Basic), tick(Beacon::Complete)];
    if beacons::any_extended(view) {
        let flag = |svg: &mut Svg, x: f64, y: f64| {
            svg.path(&beacons::flagged(x + 10.0, y + 8.0, y - 7.0), "solid", "");
        };
        signs.push(sign(flag, Beacon::Extended.name()));
    }
    signs.push(sign(band, "many"));
    signs
}

fn orders() -> Vec<(Sign, String)> {
    let orders = SHAPES.into_iter().map(|answer| {
        let meaning = match answer::has_report(answer) {
            true => tables::answer(answer),
            false => "refused".to_string(),
        };
        let draw = move |svg: &mut Svg, x: f64, y: f64| mark(svg, x + 10.0, y, 8.0, answer, "");
        sign(draw, &meaning)
    });
    orders.collect()
}
