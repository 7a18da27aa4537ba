//! The time axis.

use super::svg::{width, Align, Svg};
use super::view::View;
use super::{LEFT, RIGHT};
use crate::words::{clock, thousands};

const DAY: u64 = 86_400;

/// Steps between two labels in seconds; after the last, days by ones, twos and
/// fives.
const STEPS: [u64; 15] = [
    1, 5, 10, 30, 60, 120, 300, 600, 900, 1_800, 3_600, 7_200, 14_400, 43_200, DAY,
];

/// There are fewer labels than this, and this much space between two.
const LABELS: u64 = 16;
const SPACE: f64 = 12.0;

const SIZE: u32 = 12;

/// What times are counted in: its name, its seconds, and how many are too many
/// to be read.
const UNITS: [(&str, u64, u64); 4] = [
    ("days", DAY, u64::MAX),
    ("hours", 3_600, 240),
    ("minutes", 60, 240),
    ("seconds", 1, 600),
];

/// Seconds between two labels, and how a label is written.
struct Labels {
    step: u64,
    unit: &'static str,
    seconds: u64,
    /// As `hours:minutes:seconds`, where a number would be too great.
    clock: bool,
}

impl Labels {
    /// The first steps that give few enough labels, which don't touch.
    fn of(view: &View) -> Labels {
        let days = (0..12).flat_map(|zeros| [2, 5, 10].map(|n| n * DAY * 10_u64.pow(zeros)));
        let mut steps = STEPS.into_iter().chain(days);
        let labels = steps.find_map(|step| {
            let labels = Labels::by(step, view);
            labels.filter(|labels| labels.fit(view))
        });
        // The steps grow beyond every flight.
        labels.unwrap_or(Labels {
            step: view.to,
            unit: "days",
            seconds: DAY,
            clock: false,
        })
    }

    /// Labels by a step, if its unit is fit for the view's length.
    fn by(step: u64, view: &View) -> Option<Labels> {
        let dividing = |unit: &&(&str, u64, u64)| step.is_multiple_of(unit.1);
        let &(unit, seconds, most) = UNITS.iter().find(dividing)?;
        let length = view.to - view.from;
        (length / seconds <= most).then_some(Labels {
            step,
            unit,
            seconds,
            clock: view.to / seconds > most,
        })
    }

    fn fit(&self, view: &View) -> bool {
        let length = view.to - view.from;
        let apart = (RIGHT - LEFT) * self.step as f64 / length as f64;
        let widest = width(&self.text(view.to), SIZE);
        length / self.step < LABELS && apart > widest + SPACE
    }

    fn text(&self, second: u64) -> String {
        match self.clock {
            true => clock(second),
            false => thousands(second / self.seconds),
        }
    }

    fn name(&self) -> &str {
        match self.clock {
            true => "hours:minutes:seconds",
            false => self.unit,
        }
    }
}

/// The axis under the panels, with lines up to the top; gives where it ends.
pub fn draw(svg: &mut Svg, view: &View, top: f64, bottom: f64) -> f64 {
    let labels = Labels::of(view);
    let first = view.from.next_multiple_of(labels.step);
    for second in (first..=view.to).step_by(labels.step as usize) {
        let x = view.x(second);
        svg.line(x, bottom, x, bottom + 5.0, "thin");
        svg.text(x, bottom + 18.0, SIZE, Align::Middle, &labels.text(second));
    }
    svg.line(LEFT, bottom, RIGHT, bottom, "thin");
    svg.line(LEFT, top, LEFT, bottom, "thin");
    svg.line(RIGHT, top, RIGHT, bottom, "thin");
    let unit = format!("{} since the start", labels.name());
    let middle = (LEFT + RIGHT) / 2.0;
    svg.text(middle, bottom + 35.0, SIZE, Align::Middle, &unit);
    bottom + 38.0
}

#[cfg(test)]
mod tests {
    use super::*;
    use crate::board::Board;
    use crate::plot::Record;

    /// Every length from a second to a thousand years, begun anywhere.
    #[test]
    fn labels_are_few_and_do_not_touch() {
        let mut record = Record::new(&Board::fresh().image());
        record.seconds = 1_000 * 365 * DAY;
        let mut length = 1;
        while length < record.seconds {
            for from in [0, 59, 86_399, 360_000, record.seconds - length] {
                let to = Some(from + length);
                let Ok(view) = View::of(&record, Some(from), to) else {
                    continue;
                };
                let labels = Labels::of(&view);
                assert!(labels.fit(&view), "{length} from {from}");
                let count = view.to / labels.step - view.from / labels.step;
                assert!(count <= LABELS, "{length} from {from}");
                assert!(count > 0 || length < 10, "{length} from {from}");
            }
            length += 1 + length / 7;
        }
    }
}
