//! The list under a picture: what the numbered marks were.

use super::events::Events;
use super::marks::said;
use super::record::Event;
use super::svg::{cut, width, Align, Svg};
use super::{LEFT, WIDTH};
use crate::words::{clock, thousands};

/// A line of the list, and from how many on it has two columns.
const LINE: f64 = 17.0;
const COLUMN: usize = 8;

/// Where the list begins and ends.
const LIST: (f64, f64) = (LEFT - 60.0, WIDTH - 10.0);

/// What the marks were; gives where the list ends.
pub fn draw(svg: &mut Svg, events: &Events, y: f64) -> f64 {
    let listed = events.numbered.len();
    let columns = if listed > COLUMN { 2 } else { 1 };
    let rows = listed.div_ceil(columns);
    let room = (LIST.1 - LIST.0) / columns as f64;
    let entry = Entry::of(&events.numbered, room);
    for (at, event) in events.numbered.iter().enumerate() {
        let x = LIST.0 + room * (at / rows) as f64;
        let y = y + LINE * (at % rows) as f64;
        entry.draw(svg, x, y, at + 1, event);
    }
    let end = y + LINE * rows as f64;
    if events.others.is_empty() {
        return end;
    }
    let more = thousands(events.others.len() as u64);
    let more = format!("and {more} more, as small marks without a number");
    svg.text(LEFT - 30.0, end, 12, Align::Start, &more);
    end + LINE
}

/// Where the parts of a list's line begin: number, time, what was sent, answer.
struct Entry {
    time: f64,
    sent: f64,
    answer: f64,
}

impl Entry {
    /// So that all lines have room for theirs.
    fn of(events: &[&Event], room: f64) -> Entry {
        let widest = |text: fn(&Event) -> String| {
            let widths = events.iter().map(|event| width(&text(event), 12));
            widths.fold(0.0, f64::max)
        };
        let time = 30.0;
        let sent = time + widest(|event| clock(event.second)) + 8.0;
        let answer = room - widest(|event| said(event.answer));
        let free = sent + widest(|event| event.sent.clone()) + 7.0;
        Entry {
            time,
            sent,
            answer: answer.min(free.max(345.0)),
        }
    }

    fn draw(&self, svg: &mut Svg, x: f64, y: f64, number: usize, event: &Event) {
        let sent = cut(&event.sent, 12, self.answer - self.sent - 6.0);
        let mut text = |at: f64, align: Align, text: &str| svg.text(x + at, y, 12, align, text);
        text(20.0, Align::End, &number.to_string());
        text(self.time, Align::Start, &clock(event.second));
        text(self.sent, Align::Start, &sent);
        text(self.answer, Align::Start, &said(event.answer));
    }
}
