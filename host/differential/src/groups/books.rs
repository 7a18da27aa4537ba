//! Books: of every length, numbers about their limit in every place, and every on, off and
//! failed. What each call leaves is looked at beside the call without books too, whatever
//! the two sides agree on.

use super::masks::{all_sorts, set_modules, shot};
use super::{Verdict, MODES, ROOM};
use crate::bookkeeping::enter;
use crate::books::{self, ABOUT};
use crate::compare::books::MOST_LENT;
use crate::images;
use crate::rng::Rng;
use crate::sides::Calls;
use model::books::NUMBERS;
use model::image;
use model::table::TICK;

/// None to 30 numbers, one of them about its limit, or all; frames of all sorts, with room
/// for their report and without; images in range, and damaged ones.
pub fn lengths(sides: &[Calls; 2], rng: &mut Rng) -> Verdict {
    let mut made = 0;
    while made < 300_000 {
        for lent in 0..=MOST_LENT {
            for number in ABOUT {
                let state = images::state(rng);
                let image = match rng.below(4) {
                    0 => images::damaged(rng),
                    _ => image::save(&state).to_vec(),
                };
                let mut books = books::of_length(rng, lent);
                match books.get_mut(rng.below(lent.max(1))) {
                    Some(own) if !rng.once_in(8) => *own = number,
                    _ => books.fill(number),
                }
                enter(sides, &image, shot(rng, state.last), &books)?;
                made += 1;
            }
        }
    }
    Ok(made)
}

/// Numbers about their limit in every place, at times with another one: ticks and frames
/// of all sorts, in every mode.
pub fn limits(sides: &[Calls; 2], rng: &mut Rng) -> Verdict {
    let mut made = 0;
    while made < 450_000 {
        for mode in MODES {
            for number in ABOUT {
                for place in 0..NUMBERS {
                    let state = images::state_in(rng, mode);
                    let mut books = books::good(rng);
                    if rng.once_in(8) {
                        books[rng.below(NUMBERS)] = rng.pick(&ABOUT);
                    }
                    books[place] = number;
                    let frame = match rng.once_in(3) {
                        true => (vec![TICK, rng.byte()], ROOM),
                        false => shot(rng, state.last),
                    };
                    enter(sides, &image::save(&state), frame, &books)?;
                    made += 1;
                }
            }
        }
    }
    Ok(made)
}

/// Every on, off and failed of the eight modules before a tick, in every mode, with
/// requests and shorts of all sorts.
pub fn every_sort(sides: &[Calls; 2], rng: &mut Rng) -> Verdict {
    let mut made = 0;
    while made < 150_000 {
        for sorts in all_sorts() {
            for mode in MODES {
                let mut image = image::save(&images::state_in(rng, mode));
                let requested = rng.byte();
                set_modules(rng, &mut image, sorts, requested);
                let tick = (vec![TICK, rng.byte() & rng.byte()], ROOM);
                enter(sides, &image, tick, &books::good(rng))?;
                made += 1;
            }
        }
    }
    Ok(made)
}
