//! Steps with books that refuse too early, too late, or not at all.

use super::without::{raise, Without};
use differential::sides::StepBooks;
use model::books::{MOST_SECONDS as MOST, NUMBERS};

/// What a call has before it.
struct Asked<'a> {
    /// How many numbers are lent.
    lent: usize,
    /// What the call without books answers.
    without: u8,
    /// Whether it is a tick that is done.
    tick: bool,
    /// The numbers.
    numbers: &'a [u64],
    /// Those of them that a tick would raise.
    raised: Vec<u64>,
}

impl Asked<'_> {
    fn any(&self, holds: impl Fn(u64) -> bool) -> bool {
        self.numbers.iter().any(|number| holds(*number))
    }

    /// Whether a number is above a limit, or would be.
    fn over(&self, limit: u64) -> bool {
        self.any(|number| number > limit) || self.raised.contains(&limit)
    }

    /// The refusal, in the order that the rules give; none where there is a report.
    fn refusal(&self, lent: bool, over: bool) -> Option<u8> {
        match self.without {
            _ if !lent => Some(18),
            early @ 1..=6 => Some(early),
            _ if over => Some(17),
            7 => Some(7),
            _ => None,
        }
    }

    /// The same, with another rule for the numbers' limit.
    fn full(&self, over: bool) -> Option<u8> {
        self.refusal(self.lent == NUMBERS, over)
    }

    /// The same, with another rule for how many there must be.
    fn lent(&self, lent: bool) -> Option<u8> {
        self.refusal(lent, self.over(MOST))
    }

    /// The right one.
    fn right(&self) -> Option<u8> {
        self.full(self.over(MOST))
    }

    /// The right one, but that a full book is told before these answers.
    fn before(&self, answers: &[u8]) -> Option<u8> {
        let early = answers.contains(&self.without) && self.over(MOST);
        match self.lent == NUMBERS && early {
            true => Some(17),
            false => self.right(),
        }
    }

    /// The right one, but that it is told behind these answers.
    fn behind(&self, answers: &[u8]) -> Option<u8> {
        self.full(self.over(MOST) && !answers.contains(&self.without))
    }
}

/// What a step does, and the step, by its refusals.
macro_rules! refuses {
    ($name:literal, $rule:expr) => {
        ($name, |image, frame, room, books| {
            by(image, frame, room, books, $rule)
        })
    };
}

/// Those that ask for other numbers than 24, or in another place.
pub const LENT: [(&str, StepBooks); 8] = [
    refuses!("takes 23 numbers", |asked| {
        asked.lent(matches!(asked.lent, 23 | 24))
    }),
    refuses!("takes 25 numbers", |asked| {
        asked.lent(matches!(asked.lent, 24 | 25))
    }),
    refuses!("takes more than 24", |asked| asked.lent(asked.lent >= 24)),
    refuses!("takes threes of numbers", |asked| {
        asked.lent(asked.lent % 3 == 0)
    }),
    refuses!("looks at the image first", |asked| match asked.without {
        1 => Some(1),
        _ => asked.right(),
    }),
    refuses!("looks at the frame first", |asked| match asked.without {
        early @ 1..=6 => Some(early),
        _ => asked.right(),
    }),
    refuses!("asks who sends it first", |asked| match asked.without {
        7 => Some(7),
        _ => asked.right(),
    }),
    refuses!("looks at the numbers first", |asked| {
        match asked.any(|number| number > MOST) {
            true => Some(17),
            false => asked.right(),
        }
    }),
];

/// Those that ask for the numbers' limit in another place, or for another limit.
pub const FULL: [(&str, StepBooks); 21] = [
    refuses!("goes before 1", |asked| asked.before(&[1])),
    refuses!("goes before 2", |asked| asked.before(&[2])),
    refuses!("goes before 3", |asked| asked.before(&[3])),
    refuses!("goes before 4", |asked| asked.before(&[4])),
    refuses!("goes before 5", |asked| asked.before(&[5])),
    refuses!("goes before 6", |asked| asked.before(&[6])),
    refuses!("goes behind 7", |asked| asked.behind(&[7])),
    refuses!("goes behind 8", |asked| asked.behind(&[8])),
    refuses!("goes behind 9", |asked| asked.behind(&[9])),
    refuses!("goes behind 10", |asked| asked.behind(&[10])),
    refuses!("is asked of ticks alone", |asked| {
        asked.full(asked.tick && asked.over(MOST))
    }),
    refuses!("is asked of what a tick raises alone", |asked| {
        asked.full(asked.raised.iter().any(|number| *number >= MOST))
    }),
    refuses!("is not asked of what a tick raises", |asked| {
        asked.full(asked.any(|number| number > MOST))
    }),
    refuses!("is asked of all that stand at a tick", |asked| {
        asked.full(asked.over(MOST) || asked.tick && asked.any(|number| number == MOST))
    }),
    refuses!("is asked of all that stand", |asked| {
        asked.full(asked.any(|number| number >= MOST))
    }),
    refuses!("is one less", |asked| asked.full(asked.over(MOST - 1))),
    refuses!("is one more", |asked| asked.full(asked.over(MOST + 1))),
    refuses!("is not there", |asked| asked.full(false)),
    refuses!("takes large numbers for ones below 0", |asked| {
        let over = asked.any(|number| number as i64 > MOST as i64);
        asked.full(over || asked.raised.contains(&MOST))
    }),
    refuses!("leaves the first number out", |asked| {
        let over = asked.numbers.iter().skip(1).any(|number| *number > MOST);
        asked.full(over || asked.raised.contains(&MOST))
    }),
    refuses!("leaves the last number out", |asked| {
        let over = asked
            .numbers
            .iter()
            .rev()
            .skip(1)
            .any(|number| *number > MOST);
        asked.full(over || asked.raised.contains(&MOST))
    }),
];

/// A step with books that refuses by a rule, with nothing moved.
fn by(
    image: &mut [u8],
    frame: &[u8],
    room: &mut [u8],
    books: &mut [u64],
    rule: fn(&Asked) -> Option<u8>,
) -> u8 {
    let without = Without::of(image, frame, room);
    let raised = without.raised.iter();
    let asked = Asked {
        lent: books.len(),
        without: without.answer,
        tick: !without.raised.is_empty(),
        numbers: books,
        raised: raised
            .filter_map(|place| books.get(*place).copied())
            .collect(),
    };
    match rule(&asked) {
        Some(refusal) => refusal,
        None => {
            raise(books, &without.raised);
            without.leave(image, room)
        }
    }
}
