//! How far the groups of the books get. Every other length than 24 meets every answer that
//! it goes before. Numbers about their limit meet, in every place, every answer that 17 goes
//! before and behind, and ticks that raise them and that don't. Each module is counted on,
//! off and failed in every mode, as it was and as it has just become.

mod common;

use differential::bookkeeping::raised;
use differential::compare::books::MOST_LENT;
use differential::masks::Sort;
use differential::sides::{Calls, MODEL};
use model::books::{MOST_SECONDS as MOST, NUMBERS};
use model::report::{self, Report};
use model::table::{KINDS, MODULES, TICK};
use model::{calls, image};
use std::cell::RefCell;
use std::collections::BTreeSet;

/// What a step with books can meet.
#[derive(Clone, Copy, PartialEq, Eq, PartialOrd, Ord, Debug)]
enum Met {
    /// So many numbers, one of them above the limit or none, in the place of this answer.
    Lent {
        lent: usize,
        above: bool,
        without: u8,
    },
    /// A number about the limit in this place, and what came of this answer.
    Number {
        place: usize,
        is: Is,
        of: Of,
        answer: u8,
    },
    /// A module as it was before a done tick, in this mode, and as it is found.
    Counted {
        mode: u8,
        module: usize,
        was: Sort,
        found: Sort,
    },
    /// A frame of this kind is answered so.
    Answered { kind: u8, answer: u8 },
}

/// What a number is.
#[derive(Clone, Copy, PartialEq, Eq, PartialOrd, Ord, Debug)]
enum Is {
    JustBelow,
    AtTheLimit,
    JustAbove,
    FarAbove,
}

/// What the call without books does.
#[derive(Clone, Copy, PartialEq, Eq, PartialOrd, Ord, Debug)]
enum Of {
    /// It is a tick that is done, and raises the number.
    Raising,
    /// It is one that raises another of the module's numbers.
    Passing,
    /// It is no such tick, and is answered so.
    Other(u8),
}

thread_local! {
    static MET: RefCell<BTreeSet<Met>> = const { RefCell::new(BTreeSet::new()) };
}

fn is(number: u64) -> Option<Is> {
    match number {
        u64::MAX => Some(Is::FarAbove),
        _ if number == MOST - 1 => Some(Is::JustBelow),
        _ if number == MOST => Some(Is::AtTheLimit),
        _ if number == MOST + 1 => Some(Is::JustAbove),
        _ => None,
    }
}

/// What a module is by the masks on and failed.
fn sort(on: u8, failed: u8, module: usize) -> Sort {
    match (on >> module & 1, failed >> module & 1) {
        (1, _) => Sort::On,
        (_, 1) => Sort::Failed,
        _ => Sort::Off,
    }
}

/// Notes what a call meets: with books, and the same without.
fn note(image: &[u8], frame: &[u8], room: &[u8], books: &[u64]) {
    let (mut next, mut reply) = (image.to_vec(), room.to_vec());
    let without = calls::step(&mut next, frame, &mut reply);
    let (mut own, mut lent) = (image.to_vec(), books.to_vec());
    let answer = calls::step_books(&mut own, frame, &mut room.to_vec(), &mut lent);
    let report = reply
        .first_chunk::<{ report::BYTES }>()
        .map(Report::from_bytes);
    let report = report.filter(|_| matches!(without, 0 | 8..=10));
    let raised = report.map_or(vec![], |report| raised(&report));
    let mut met = Vec::new();
    let above = books.iter().any(|number| *number > MOST);
    met.push(Met::Lent {
        lent: books.len(),
        above,
        without,
    });
    if books.len() == NUMBERS {
        for (place, is) in books.iter().map(|number| is(*number)).enumerate() {
            let of = match raised.contains(&place) {
                true => Of::Raising,
                false if !raised.is_empty() => Of::Passing,
                false => Of::Other(without),
            };
            met.extend(is.map(|is| Met::Number {
                place,
                is,
                of,
                answer,
            }));
        }
    }
    if let (Some(report), Some(before)) = (report, image::load(image)) {
        let kind = report.kind;
        met.push(Met::Answered { kind, answer });
        let masks = before.masks;
        let modules = (0..8).filter(|_| kind == TICK && answer == 0);
        met.extend(modules.map(|module| Met::Counted {
            mode: before.mode.number(),
            module,
            was: sort(masks.on, masks.failed, module),
            found: sort(report.on, report.failed, module),
        }));
    }
    MET.with_borrow_mut(|all| all.extend(met));
}

/// What a group has met.
fn met(group: &str) -> BTreeSet<Met> {
    let noting = Calls {
        step_books: |image, frame, room, books| {
            note(image, frame, room, books);
            calls::step_books(image, frame, room, books)
        },
        ..MODEL
    };
    common::run(group, &[noting, MODEL]).expect("no difference");
    MET.take()
}

fn all_of(met: &BTreeSet<Met>, wanted: impl IntoIterator<Item = Met>) {
    for wanted in wanted {
        assert!(met.contains(&wanted), "not met: {wanted:?}");
    }
}

#[test]
fn every_length_meets_every_answer() {
    let met = met("books of every length");
    for lent in 0..=MOST_LENT {
        for without in 0..=10 {
            for above in [false, true] {
                let wanted = Met::Lent {
                    lent,
                    above,
                    without,
                };
                // None is above where there is none.
                assert_eq!(met.contains(&wanted), lent > 0 || !above, "{wanted:?}");
            }
        }
    }
}

#[test]
fn every_number_about_its_limit_meets_every_answer_in_every_place() {
    let met = met("numbers of the books about their limit");
    for place in 0..NUMBERS {
        let number = |is, of, answer| Met::Number {
            place,
            is,
            of,
            answer,
        };
        // What 17 goes behind, and what it goes before.
        for is in [Is::JustAbove, Is::FarAbove] {
            all_of(
                &met,
                (2..=6).map(|answer| number(is, Of::Other(answer), answer)),
            );
            let others = [0, 7, 8, 9, 10].map(Of::Other);
            let before = others.into_iter().chain([Of::Raising, Of::Passing]);
            all_of(&met, before.map(|of| number(is, of, 17)));
        }
        for is in [Is::JustBelow, Is::AtTheLimit] {
            let answers = [0].into_iter().chain(2..=10);
            all_of(
                &met,
                answers.map(|answer| number(is, Of::Other(answer), answer)),
            );
            all_of(&met, [number(is, Of::Passing, 0)]);
        }
        all_of(&met, [number(Is::JustBelow, Of::Raising, 0)]);
        all_of(&met, [number(Is::AtTheLimit, Of::Raising, 17)]);
        assert!(!met.contains(&number(Is::AtTheLimit, Of::Raising, 0)));
    }
}

#[test]
fn each_module_is_counted_as_it_was_and_as_it_becomes() {
    let met = met("every on, off and failed in the books");
    let switched = [
        (Sort::On, Sort::On),
        (Sort::On, Sort::Off),
        (Sort::On, Sort::Failed),
        (Sort::Off, Sort::On),
        (Sort::Off, Sort::Off),
        (Sort::Off, Sort::Failed),
        (Sort::Failed, Sort::On),
        (Sort::Failed, Sort::Failed),
    ];
    for (module, row) in MODULES.iter().enumerate() {
        let counted = |mode, (was, found)| Met::Counted {
            mode,
            module,
            was,
            found,
        };
        // Nothing is switched in DEPLOY_WAIT.
        let still = [Sort::On, Sort::Off, Sort::Failed].map(|sort| (sort, sort));
        all_of(&met, still.map(|way| counted(0, way)));
        // In RECOVERY one of the mission four is not started, unless the mode rises.
        let core = switched.into_iter().filter(|_| row.core);
        all_of(&met, core.map(|way| counted(1, way)));
        all_of(&met, still[1..].iter().map(|way| counted(1, *way)));
        all_of(&met, switched.map(|way| counted(2, way)));
    }
}

#[test]
fn flights_meet_every_kind_and_every_module_in_every_way() {
    let met = met("flights in the books");
    for kind in &KINDS {
        let kind = kind.byte;
        all_of(&met, [Met::Answered { kind, answer: 0 }]);
    }
    let late = [8, 9, 10].map(|answer| Met::Answered { kind: 0x04, answer });
    all_of(&met, late);
    for (module, row) in MODULES.iter().enumerate() {
        for found in [Sort::On, Sort::Off, Sort::Failed] {
            let modes = [0, 1, 2].into_iter();
            // In RECOVERY none of the mission four stays on.
            let modes = modes.filter(|mode| (*mode, found, row.core) != (1, Sort::On, false));
            let was = found;
            let counted = modes.map(|mode| Met::Counted {
                mode,
                module,
                was,
                found,
            });
            all_of(&met, counted);
        }
    }
}

#[test]
fn books_fill_up_in_every_place_and_frames_of_every_kind_come_again() {
    let met = met("books that fill up");
    for place in 0..NUMBERS {
        let full = |of, answer| Met::Number {
            place,
            is: Is::AtTheLimit,
            of,
            answer,
        };
        all_of(&met, [full(Of::Raising, 17), full(Of::Passing, 0)]);
    }
    // A tick, and then any frame, that is refused is taken later.
    for kind in &KINDS {
        let kind = kind.byte;
        all_of(&met, [0, 17].map(|answer| Met::Answered { kind, answer }));
    }
    for answer in [0, 7, 8, 9, 10] {
        let of = Of::Other(answer);
        let refused =
            |met: &Met| matches!(met, Met::Number { of: own, answer: 17, .. } if *own == of);
        assert!(met.iter().any(refused), "not met: 17 for {answer}");
    }
}
