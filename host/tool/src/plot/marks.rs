//! The shapes of orders and refused frames, by their answers.

use super::svg::{polygon, Svg};
use crate::tables;
use ems::answer;

/// The answers that have a shape of their own; every refusal has the last one's.
pub const SHAPES: [u8; 5] = [
    answer::DONE,
    answer::REPEAT,
    answer::STALE,
    answer::NOT_NOW,
    answer::BAD_FIELD,
];

/// The answer whose shape an answer has.
pub fn shape(answer: u8) -> u8 {
    match answer::has_report(answer) {
        true => answer,
        false => answer::BAD_FIELD,
    }
}

/// An answer by number and name.
pub fn said(answer: u8) -> String {
    let named = tables::answer(answer);
    match answer::has_report(answer) {
        true => named,
        false => format!("refused: {named}"),
    }
}

/// A mark whose shape is its answer: a black circle is done; of the others a
/// white circle is a repeat, a diamond stale, a square not now, a cross refused.
pub fn mark(svg: &mut Svg, x: f64, y: f64, radius: f64, answer: u8, about: &str) {
    let corner = |dx: f64, dy: f64| (x + radius * dx, y + radius * dy);
    match answer {
        answer::DONE => svg.circle(x, y, radius, "solid", about),
        answer::REPEAT => svg.circle(x, y, radius, "box", about),
        answer::STALE => {
            let corners = [(0.0, -1.2), (1.2, 0.0), (0.0, 1.2), (-1.2, 0.0)];
            svg.path(
                &polygon(&corners.map(|(dx, dy)| corner(dx, dy))),
                "box",
                about,
            );
        }
        answer::NOT_NOW => {
            svg.rect(
                x - radius,
                y - radius,
                2.0 * radius,
                2.0 * radius,
                "box",
                about,
            );
        }
        _ => svg.path(
            &polygon(&CROSS.map(|(dx, dy)| corner(dx, dy))),
            "box",
            about,
        ),
    }
}

/// The corners of a cross that stands on two feet.
const CROSS: [(f64, f64); 12] = {
    // From the middle to an inner corner, and to an arm's two outer ones.
    const IN: f64 = 0.72;
    const NEAR: f64 = 0.43;
    const FAR: f64 = 1.15;
    [
        (0.0, -IN),
        (NEAR, -FAR),
        (FAR, -NEAR),
        (IN, 0.0),
        (FAR, NEAR),
        (NEAR, FAR),
        (0.0, IN),
        (-NEAR, FAR),
        (-FAR, NEAR),
        (-IN, 0.0),
        (-FAR, -NEAR),
        (-NEAR, -FAR),
    ]
};

/// A number on a mark.
pub fn inscribe(svg: &mut Svg, x: f64, y: f64, answer: u8, number: &str) {
    match answer {
        answer::DONE => svg.inverse(x, y + 4.0, 11, number),
        answer if answer::has_report(answer) => svg.label(x, y + 4.0, 11, number),
        _ => svg.label(x, y + 3.5, 9, number),
    }
}
