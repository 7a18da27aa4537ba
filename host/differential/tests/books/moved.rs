//! Steps with books that move something as they refuse, or do something else instead.

use super::without::{raise, Without};
use differential::sides::StepBooks;
use model::books::MOST_SECONDS as MOST;
use model::calls;
use model::table::TICK;

/// Raises those of the numbers that have room for it.
fn raise_others(books: &mut [u64], places: &[usize]) {
    for place in places {
        books[*place] += u64::from(books[*place] < MOST);
    }
}

/// What a step does at an answer, and the step.
macro_rules! moves {
    ($name:literal, $answer:literal, $then:expr) => {
        ($name, |image, frame, room, books| {
            let without = Without::of(image, frame, room);
            match calls::step_books(image, frame, room, books) {
                $answer => {
                    let then: Then = $then;
                    then(&without, image, room, books)
                }
                answer => answer,
            }
        })
    };
}

/// What is done in the place of an answer, by what the call without books leaves: to the
/// image, the room and the books; and what is answered.
type Then = fn(&Without, &mut [u8], &mut [u8], &mut [u64]) -> u8;

/// Those that move something as they refuse, or do something else instead.
pub const MOVED: [(&str, StepBooks); 10] = [
    moves!("writes the report at 17", 17, |without, _, room, _| {
        room.copy_from_slice(&without.room);
        17
    }),
    moves!("moves the image at 17", 17, |without, image, _, _| {
        image.copy_from_slice(&without.image);
        17
    }),
    moves!("raises the others at 17", 17, |without, _, _, books| {
        raise_others(books, &without.raised);
        17
    }),
    moves!("clears the books at 17", 17, |_, _, _, books| {
        books.fill(0);
        17
    }),
    moves!("holds a full number", 17, |without, image, room, books| {
        match books.iter().any(|number| *number > MOST) {
            true => 17,
            false => {
                raise_others(books, &without.raised);
                without.leave(image, room)
            }
        }
    }),
    moves!("goes back to 0", 17, |without, image, room, books| {
        match books.iter().any(|number| *number > MOST) {
            true => 17,
            false => {
                raise(books, &without.raised);
                books.iter_mut().for_each(|number| *number %= MOST + 1);
                without.leave(image, room)
            }
        }
    }),
    moves!("writes the report at 18", 18, |without, _, room, _| {
        room.copy_from_slice(&without.room);
        18
    }),
    moves!("moves the image at 18", 18, |without, image, _, _| {
        image.copy_from_slice(&without.image);
        18
    }),
    moves!("counts a tick with no room", 2, |without, _, _, books| {
        if without.frame.first() == Some(&TICK) {
            raise(books, &[1]);
        }
        2
    }),
    moves!("counts a tick cut off", 5, |without, _, _, books| {
        if without.frame.first() == Some(&TICK) {
            raise(books, &[1]);
        }
        5
    }),
];
