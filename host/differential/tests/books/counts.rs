//! Steps with books that count something else than what is found after a tick that is
//! done.

use differential::masks::Sort;
use differential::sides::StepBooks;
use model::books::NUMBERS;
use model::state::{Mode, Power};
use model::table::{BATTERY, MODULES, TICK};
use model::{calls, image, State};

/// What is counted of a module by the states before and after a tick: its number, if it
/// has one.
type Rule = fn(&State, &State, usize) -> Option<usize>;

/// What a step does, and the step, by what it counts of a module.
macro_rules! counts {
    ($name:literal, $rule:expr) => {
        ($name, |image, frame, room, books| {
            by(image, frame, room, books, $rule)
        })
    };
}

/// What each does, and the step.
pub const COUNTED: [(&str, StepBooks); 18] = [
    counts!("counts before the tick", |before, _, own| {
        right(before, own)
    }),
    counts!("counts on as off", |_, after, own| {
        at(own, instead(sort(after, own), Sort::On, Sort::Off))
    }),
    counts!("counts off as failed", |_, after, own| {
        at(own, instead(sort(after, own), Sort::Off, Sort::Failed))
    }),
    counts!("counts failed as off", |_, after, own| {
        at(own, instead(sort(after, own), Sort::Failed, Sort::Off))
    }),
    counts!("counts one that fails as off", |before, after, own| {
        match (sort(before, own), sort(after, own)) {
            (Sort::Failed, now) => at(own, now),
            (_, now) => at(own, instead(now, Sort::Failed, Sort::Off)),
        }
    }),
    counts!("leaves the second of a start out", |before, after, own| {
        let starts = sort(before, own) != Sort::On && sort(after, own) == Sort::On;
        right(after, own).filter(|_| !starts)
    }),
    counts!("counts none in DEPLOY_WAIT", |before, after, own| {
        right(after, own).filter(|_| !before.mode.deploying())
    }),
    counts!("counts none as DEPLOY_WAIT ends", |before, after, own| {
        let ends = before.mode.deploying() && !after.mode.deploying();
        right(after, own).filter(|_| !ends)
    }),
    counts!("counts all as off in DEPLOY_WAIT", |before, after, own| {
        match before.mode.deploying() {
            true => at(own, Sort::Off),
            false => right(after, own),
        }
    }),
    counts!(
        "counts the mission four as off in RECOVERY",
        |_, after, own| {
            match after.mode == Mode::Recovery && !MODULES[own].core {
                true => at(own, Sort::Off),
                false => right(after, own),
            }
        }
    ),
    counts!("counts the requested as on", |_, after, own| {
        match after.modules[own].requested {
            true => at(own, Sort::On),
            false => right(after, own),
        }
    }),
    counts!("leaves module 0 out", |_, after, own| {
        right(after, own).filter(|_| own != 0)
    }),
    counts!("leaves module 7 out", |_, after, own| {
        right(after, own).filter(|_| own != 7)
    }),
    counts!("has them by on, off and failed", |_, after, own| {
        Some(8 * sort(after, own) as usize + own)
    }),
    counts!("has them on, failed and off", |_, after, own| {
        let column = [0, 2, 1][sort(after, own) as usize];
        Some(3 * own + column)
    }),
    counts!("has the modules from the last on", |_, after, own| {
        at(7 - own, sort(after, own))
    }),
    counts!("counts one module a tick", |_, after, own| {
        right(after, own).filter(|_| own == usize::from(after.control % 8))
    }),
    ("counts twice", |image, frame, room, books| {
        let before = books.to_vec();
        let answer = calls::step_books(image, frame, room, books);
        for (number, before) in books.iter_mut().zip(before) {
            *number += *number - before;
        }
        answer
    }),
];

/// What a step does, and the step, by the kinds and answers of the frames that it counts.
macro_rules! others {
    ($name:literal, $rule:expr) => {
        ($name, |image, frame, room, books| {
            counting(image, frame, room, books, $rule)
        })
    };
}

/// Those that count other frames too.
pub const OTHERS: [(&str, StepBooks); 4] = [
    others!("counts every frame that is done", |_, answer| answer == 0),
    others!("counts every frame with a report", |_, _| true),
    others!("counts a reading", |kind, _| kind == BATTERY),
    others!("counts a frame that is late", |_, answer| {
        matches!(answer, 8 | 9)
    }),
];

/// What a module is.
fn sort(state: &State, own: usize) -> Sort {
    match state.modules[own].power {
        Power::On { .. } => Sort::On,
        Power::Off(_) => Sort::Off,
        Power::Failed(_) => Sort::Failed,
    }
}

/// One for another, and what else there is for itself.
fn instead(sort: Sort, one: Sort, other: Sort) -> Sort {
    match sort == one {
        true => other,
        false => sort,
    }
}

/// The number of a module that is found so.
fn at(own: usize, sort: Sort) -> Option<usize> {
    Some(3 * own + sort as usize)
}

/// The number that a module has in a state.
fn right(state: &State, own: usize) -> Option<usize> {
    at(own, sort(state, own))
}

/// A step with books that counts by a rule.
fn by(image: &mut [u8], frame: &[u8], room: &mut [u8], books: &mut [u64], rule: Rule) -> u8 {
    let (before, had) = (image::load(image), books.to_vec());
    let answer = calls::step_books(image, frame, room, books);
    if let (Some(before), Some(after), 0, [TICK, _]) = (before, image::load(image), answer, frame) {
        books.copy_from_slice(&had);
        for number in (0..8).filter_map(|own| rule(&before, &after, own)) {
            books[number] += 1;
        }
    }
    answer
}

/// A step with books that counts more frames than ticks.
fn counting(
    image: &mut [u8],
    frame: &[u8],
    room: &mut [u8],
    books: &mut [u64],
    counts: fn(u8, u8) -> bool,
) -> u8 {
    let answer = calls::step_books(image, frame, room, books);
    let reported = matches!(answer, 0 | 8..=10) && books.len() == NUMBERS;
    if let (Some(state), true) = (image::load(image), reported) {
        if frame[0] != TICK && counts(frame[0], answer) {
            for number in (0..8).filter_map(|own| right(&state, own)) {
                books[number] += 1;
            }
        }
    }
    answer
}
