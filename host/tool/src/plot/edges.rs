//! What stands at a panel's edges: numbers, units, and names over it.

use super::layout::{spread, Wish};
use super::scale::Scale;
use super::svg::{width, Align, Svg};
use super::{LEFT, RIGHT};
use crate::words::thousands;

const SIZE: u32 = 12;

/// So many labels stand beside a panel, and under it, there with this much space between.
const BESIDE: u64 = 6;
const UNDER: u64 = 10;
const SPACE: f64 = 4.0;

/// Faint lines across the panel, with their numbers on the left.
pub fn left(svg: &mut Svg, scale: &Scale, unit: &str) {
    for (number, y) in scale.round(BESIDE) {
        svg.line(LEFT, y, RIGHT, y, "faint");
        let label = format!("{} {unit}", thousands(number));
        svg.text(LEFT - 8.0, y + 4.0, SIZE, Align::End, &label);
    }
}

/// Numbers on the right, for what has another scale.
pub fn right(svg: &mut Svg, scale: &Scale, unit: &str) {
    for (number, y) in scale.round(BESIDE) {
        svg.line(RIGHT, y, RIGHT + 5.0, y, "thin");
        let label = format!("{} {unit}", thousands(number));
        svg.text(RIGHT + 8.0, y + 4.0, SIZE, Align::Start, &label);
    }
}

/// Numbers under the panel and what they count, and its edges; gives where it all ends.
pub fn under(svg: &mut Svg, scale: &Scale, counts: &str, (top, bottom): (f64, f64)) -> f64 {
    for (number, x) in labels(scale) {
        svg.line(x, bottom, x, bottom + 5.0, "thin");
        svg.text(x, bottom + 18.0, SIZE, Align::Middle, &thousands(number));
    }
    for x in [LEFT, RIGHT] {
        svg.line(x, top, x, bottom, "thin");
    }
    svg.line(LEFT, bottom, RIGHT, bottom, "thin");
    let middle = (LEFT + RIGHT) / 2.0;
    svg.text(middle, bottom + 35.0, SIZE, Align::Middle, counts);
    bottom + 38.0
}

/// The numbers under the panel with their places: as many as don't touch.
fn labels(scale: &Scale) -> Vec<(u64, f64)> {
    let half = |number: u64| width(&thousands(number), SIZE) / 2.0;
    let apart = |labels: &[(u64, f64)]| {
        let mut pairs = labels.iter().zip(labels.iter().skip(1));
        pairs.all(|(one, next)| next.1 - one.1 >= half(one.0) + half(next.0) + SPACE)
    };
    let mut fewer = (1..=UNDER).rev().map(|few| scale.round(few));
    fewer.find(|labels| apart(labels)).unwrap_or_default()
}

/// A name over the panel, as near to its place as there is room.
pub fn name(svg: &mut Svg, x: f64, top: f64, text: &str) {
    let wish = Wish {
        middle: x,
        width: width(text, SIZE),
    };
    for x in spread(&[wish], LEFT, RIGHT) {
        svg.text(x, top - 6.0, SIZE, Align::Middle, text);
    }
}

#[cfg(test)]
mod tests {
    use super::*;

    /// From a second to the most that books hold, there are labels, and fewer where they
    /// are wide.
    #[test]
    fn labels_under_a_panel_do_not_touch() {
        let under = |most: u64| labels(&Scale::new((0.0, most as f64), (LEFT, RIGHT)));
        for zeros in 0..=15 {
            for n in 1..10 {
                let most = n * 10_u64.pow(zeros);
                let labels = under(most);
                assert!((2..=11).contains(&labels.len()), "{most}: {labels:?}");
                for pair in labels.windows(2) {
                    let room = pair[1].1 - pair[0].1;
                    assert!(
                        room > width(&thousands(pair[0].0), SIZE),
                        "{most}: {pair:?}"
                    );
                }
            }
        }
        assert_eq!(under(1_000_000).len(), 11);
        assert_eq!(under(1_000_000_000).len(), 6);
    }
}
