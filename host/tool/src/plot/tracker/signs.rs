//! What the shapes of a walk's picture mean.

use super::{calls, panel};
use crate::plot::legend::{sign, Group, Sign};
use crate::plot::marks::mark;
use crate::plot::svg::Svg;
use crate::track::Walk;

pub fn all(walk: &Walk) -> Vec<Group> {
    let mut set_points = vec![
        circle("box", "before it crosses the peak"),
        circle("solid", "since then"),
    ];
    if let Some(refused) = walk.refused {
        let cross = move |svg: &mut Svg, x: f64, y: f64| {
            mark(svg, x + 10.0, y, calls::RADIUS, refused.answer, "");
        };
        set_points.push(sign(cross, "refused call"));
    }
    let two_steps =
        |svg: &mut Svg, x: f64, y: f64| svg.rect(x, y - 7.0, 20.0, 14.0, "low-light edged", "");
    vec![
        (
            "Panel:",
            vec![line("curve", "power"), line("stem", "current")],
        ),
        ("Set point:", set_points),
        (
            "Peak:",
            vec![
                line("ascend", "peak"),
                sign(two_steps, "two steps around it"),
            ],
        ),
    ]
}

fn line(class: &'static str, meaning: &str) -> (Sign, String) {
    sign(
        move |svg: &mut Svg, x: f64, y: f64| svg.line(x, y, x + 20.0, y, class),
        meaning,
    )
}

fn circle(class: &'static str, meaning: &str) -> (Sign, String) {
    sign(
        move |svg: &mut Svg, x: f64, y: f64| svg.circle(x + 10.0, y, panel::RADIUS, class, ""),
        meaning,
    )
}
