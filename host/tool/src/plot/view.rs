//! The part of a flight that is drawn, and where its seconds stand.

use super::record::{Record, Stretch, Track};
use super::{LEFT, RIGHT};
use crate::words::clock;

/// Bars with less than this between them are one.
const APART: f64 = 0.5;

/// A flight from one second to another.
pub struct View<'a> {
    pub record: &'a Record,
    pub from: u64,
    pub to: u64,
}

/// Stretches of time, too close to tell apart if there are several.
pub struct Bar {
    pub from: u64,
    pub to: u64,
    pub times: u64,
}

impl<'a> View<'a> {
    /// The part that is asked for, which has to be there.
    pub fn of(record: &'a Record, from: Option<u64>, to: Option<u64>) -> Result<View<'a>, String> {
        let end = record.seconds;
        let from_here = from.unwrap_or(0);
        if let Some(from) = from.filter(|&from| from > 0 && from >= end) {
            let (from, end) = (clock(from), clock(end));
            return Err(format!(
                "nothing is left from {from} on: the flight ends at {end}"
            ));
        }
        if let Some(to) = to.filter(|&to| to <= from_here) {
            let (from, to) = (clock(from_here), clock(to));
            return Err(format!(
                "the picture would end at {to}, and begin at {from}"
            ));
        }
        Ok(View {
            record,
            from: from_here,
            // There is always a second to draw.
            to: to.map_or(end, |to| to.min(end)).max(from_here + 1),
        })
    }

    /// Whether this is all of the flight.
    pub fn is_whole(&self) -> bool {
        self.from == 0 && self.to >= self.record.seconds
    }

    /// Where a second stands; those outside stand at the edge.
    pub fn x(&self, second: u64) -> f64 {
        let second = second.clamp(self.from, self.to) - self.from;
        LEFT + (RIGHT - LEFT) * second as f64 / (self.to - self.from) as f64
    }

    /// Whether something that happens at a second is seen.
    pub fn shows(&self, second: u64) -> bool {
        (self.from..=self.to).contains(&second)
    }

    /// The stretches of a track that are seen at least in part.
    pub fn stretches<T: Copy + PartialEq>(&self, track: &Track<T>) -> Vec<Stretch<T>> {
        let end = self.record.seconds.max(self.to);
        let seen = |stretch: &Stretch<T>| {
            stretch.from <= self.to && (stretch.to > self.from || stretch.from >= self.from)
        };
        track.stretches(end).filter(seen).collect()
    }

    /// The stretches in which something is true of a track's value, joined where
    /// they touch or are too close to tell apart.
    pub fn bars<T: Copy + PartialEq>(&self, track: &Track<T>, is: impl Fn(T) -> bool) -> Vec<Bar> {
        let mut bars: Vec<Bar> = Vec::new();
        for Stretch { from, to, value } in self.stretches(track) {
            if !is(value) {
                continue;
            }
            match bars.last_mut() {
                Some(last) if self.x(from) - self.x(last.to) < APART => {
                    last.times += u64::from(last.to < from);
                    last.to = to;
                }
                _ => bars.push(Bar { from, to, times: 1 }),
            }
        }
        bars
    }
}

/// From one second to another, for people.
pub fn span(from: u64, to: u64) -> String {
    format!("{} to {}", clock(from), clock(to))
}

#[cfg(test)]
mod tests {
    use super::*;
    use crate::board::Board;
    use crate::tables::TICK;

    fn flown(seconds: u64) -> Record {
        let mut board = Board::fresh();
        let mut record = Record::new(&board.image());
        for _ in 0..seconds {
            record.add(&[TICK, 0], &board.step(&[TICK, 0]));
        }
        record
    }

    #[test]
    fn a_part_has_to_be_there() {
        let record = flown(100);
        let part = |from, to| View::of(&record, from, to).map(|view| (view.from, view.to));
        assert_eq!(part(None, None), Ok((0, 100)));
        assert_eq!(part(Some(10), Some(20)), Ok((10, 20)));
        assert_eq!(part(Some(10), Some(1_000)), Ok((10, 100)));
        assert!(part(Some(100), None).is_err());
        assert!(part(Some(20), Some(20)).is_err());
        assert!(part(None, Some(0)).is_err());
    }

    #[test]
    fn an_empty_flight_has_a_second_to_draw() {
        let record = flown(0);
        let view = View::of(&record, None, None).expect("it can be drawn");
        assert_eq!((view.from, view.to, record.seconds), (0, 1, 0));
        assert_eq!(view.stretches(&record.mode).len(), 1);
    }

    #[test]
    fn what_is_outside_stands_at_the_edge() {
        let record = flown(100);
        let view = View::of(&record, Some(10), Some(20)).expect("it can be drawn");
        assert_eq!(view.x(0), LEFT);
        assert_eq!(view.x(15), (LEFT + RIGHT) / 2.0);
        assert_eq!(view.x(100), RIGHT);
    }
}
