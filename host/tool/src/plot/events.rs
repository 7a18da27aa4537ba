//! Orders with their answers, and refused frames: marks over the time, the first
//! ones with numbers.

use super::layout::{groups, spread, Wish};
use super::marks::{inscribe, mark, said, shape, SHAPES};
use super::record::Event;
use super::svg::{Align, Svg};
use super::view::{span, View};
use super::{LEFT, RIGHT};
use crate::words::{clock, count};
use ems::answer;

/// So many are numbered and listed; the others are small.
const LISTED: usize = 40;

/// A mark's radius, a small one's, and how many stand over each other at most.
const RADIUS: f64 = 8.5;
const SMALL: f64 = 3.0;
const LEVELS: usize = 5;

/// From one mark's middle to the next one's.
const STEP: f64 = 2.0 * RADIUS + 2.0;

/// What is seen of a flight's events.
pub struct Events<'a> {
    pub numbered: Vec<&'a Event>,
    pub others: Vec<&'a Event>,
}

impl<'a> Events<'a> {
    /// Numbers go first to what was not done, then to the others, each in their
    /// order.
    pub fn of(view: &View<'a>) -> Events<'a> {
        let seen = view
            .record
            .events
            .iter()
            .filter(|event| view.shows(event.second));
        let (done, undone): (Vec<&Event>, Vec<&Event>) = seen.partition(|event| event.is_done());
        let mut numbered: Vec<&Event> = undone.iter().chain(&done).copied().collect();
        let mut others = numbered.split_off(numbered.len().min(LISTED));
        for events in [&mut numbered, &mut others] {
            events.sort_by_key(|event| event.n);
        }
        Events { numbered, others }
    }

    /// The marks; gives where they end.
    pub fn draw(&self, svg: &mut Svg, view: &View, y: f64) -> f64 {
        let times: Vec<f64> = self
            .numbered
            .iter()
            .map(|event| view.x(event.second))
            .collect();
        let places = places(&times);
        let tall = places.iter().map(|place| place.1 + 1).max().unwrap_or(1);
        let small = if self.others.is_empty() {
            0.0
        } else {
            2.0 * SMALL + 4.0
        };
        let bottom = y + tall as f64 * STEP + small + 4.0;
        svg.text(LEFT - 12.0, bottom - 8.0, 12, Align::End, "orders");
        let middle = |level: usize| bottom - small - 4.0 - RADIUS - level as f64 * STEP;
        for (&time, &(x, level)) in times.iter().zip(&places) {
            svg.line(x, middle(level), time, bottom, "thin");
        }
        for (at, (event, &(x, level))) in self.numbered.iter().zip(&places).enumerate() {
            let number = (at + 1).to_string();
            let (sent, answer) = (&event.sent, said(event.answer));
            let about = format!("{number}, {}: {sent}: {answer}", clock(event.second));
            mark(svg, x, middle(level), RADIUS, event.answer, &about);
            inscribe(svg, x, middle(level), event.answer, &number);
        }
        self.small(svg, view, bottom - SMALL - 2.0);
        svg.line(LEFT, bottom, RIGHT, bottom, "thin");
        bottom
    }

    /// Marks without numbers, those of one shape together where they would cover
    /// each other; what was not done comes last, and covers what was.
    fn small(&self, svg: &mut Svg, view: &View, y: f64) {
        for own in SHAPES {
            let same = self.others.iter().filter(|one| shape(one.answer) == own);
            let same: Vec<&Event> = same.copied().collect();
            for group in groups(&same, |event| view.x(event.second), 2.0 * SMALL) {
                let x = view.x(group[0].second).clamp(LEFT + SMALL, RIGHT - SMALL);
                mark(svg, x, y, SMALL, own, &about(group));
            }
        }
    }

    /// Faint lines from the marks down, to see what came of them.
    pub fn stems(&self, svg: &mut Svg, view: &View, top: f64, bottom: f64) {
        for event in &self.numbered {
            let x = view.x(event.second);
            svg.line(x, top, x, bottom, "stem");
        }
    }
}

/// What is said of events of one shape.
fn about(events: &[&Event]) -> String {
    let (first, last) = (events[0], events[events.len() - 1]);
    let (many, span) = (events.len() as u64, span(first.second, last.second));
    match events {
        [one] => format!("{}: {}: {}", clock(one.second), one.sent, said(one.answer)),
        _ if answer::has_report(first.answer) => {
            format!("{}, {}, {span}", count(many, "order"), said(first.answer))
        }
        _ => format!("{} refused, {span}", count(many, "frame")),
    }
}

/// Where each mark stands and how high, so that none covers another: above the
/// one before, or to its right where the stack is full, and none beyond an edge.
fn places(times: &[f64]) -> Vec<(f64, usize)> {
    let mut free = [f64::MIN; LEVELS];
    let mut levels = Vec::new();
    for &time in times {
        let first = free.iter().position(|&free| free <= time);
        let least = || (1..LEVELS).fold(0, |a, b| if free[b] < free[a] { b } else { a });
        let level = first.unwrap_or_else(least);
        free[level] = time.max(free[level]) + STEP;
        levels.push(level);
    }
    let mut places: Vec<(f64, usize)> = times.iter().copied().zip(levels).collect();
    for level in 0..LEVELS {
        let own: Vec<usize> = (0..places.len())
            .filter(|&at| places[at].1 == level)
            .collect();
        let wish = |&at: &usize| Wish {
            middle: times[at],
            width: STEP,
        };
        let wishes: Vec<Wish> = own.iter().map(wish).collect();
        for (at, x) in own.iter().zip(spread(&wishes, LEFT, RIGHT)) {
            places[*at].0 = x;
        }
    }
    places
}
