//! How far the groups of the masks get. Every call meets every bit of each mask turned,
//! alone and with others, under all that it could have answered otherwise; and each module
//! that is something else than its masks have it, in all ways. All masks that there can be
//! are counted. Frames set and clear the bits of all modules, for every reason.

mod common;

use differential::masks::{masks_of, turn, Sort, MASKS, SORTS};
use differential::sides::{Calls, MODEL};
use model::state::{Mode, Power};
use model::table::{MODULES, ORDER, TIMED};
use model::{calls, image, State};
use std::cell::RefCell;
use std::collections::BTreeSet;

/// The calls that take an image.
#[derive(Clone, Copy, PartialEq, Eq, PartialOrd, Ord, Debug)]
enum Call {
    Step,
    StepBooks,
    Pass,
    ModulesOn,
    Basic,
    Complete,
    Extended,
}

/// What each can answer to an image in range.
const ANSWERS: [(Call, &[u8]); 7] = [
    (Call::Step, &[0, 2, 3, 4, 5, 6, 7, 8, 9, 10]),
    (Call::StepBooks, &[0, 2, 3, 4, 5, 6, 7, 8, 9, 10]),
    (Call::Pass, &[0, 2, 4, 5, 6, 7]),
    (Call::ModulesOn, &[0]),
    (Call::Basic, &[0, 14]),
    (Call::Complete, &[0, 14]),
    (Call::Extended, &[0, 14, 21]),
];

/// Whether a module is requested, and what it is.
type Way = (bool, Sort);

/// What a call can meet.
#[derive(PartialEq, Eq, PartialOrd, Ord, Debug)]
enum Met {
    /// This answer, where masks and modules agree.
    Agreed(u8),
    /// 1 in the place of this answer.
    InPlaceOf(u8),
    /// This bit turned, and no other.
    Turned { mask: usize, bit: u32 },
    /// Bits turned in so many masks, several in one of them or not.
    Together { masks: usize, several: bool },
    /// A module that the masks have one way, and that is another, or the same.
    Module { number: usize, kept: Way, is: Way },
}

thread_local! {
    static MET: RefCell<BTreeSet<(Call, Met)>> = const { RefCell::new(BTreeSet::new()) };
}

/// What masks have a module for; one that is on and failed counts as failed.
fn way([requested, on, failed]: [u8; 3], number: usize) -> Way {
    let has = |mask: u8| mask >> number & 1 == 1;
    let sort = match (has(on), has(failed)) {
        (_, true) => Sort::Failed,
        (true, false) => Sort::On,
        (false, false) => Sort::Off,
    };
    (has(requested), sort)
}

/// Notes what a call has met; `answer` makes it, on a copy of the image.
fn note(call: Call, image: &[u8], answer: impl Fn(&mut [u8]) -> u8) {
    let (kept, right) = (MASKS.map(|place| image[place]), masks_of(image));
    let turned: [u8; 3] = std::array::from_fn(|mask| kept[mask] ^ right[mask]);
    let mut agreed = image.to_vec();
    turn(&mut agreed, turned);
    let own = answer(&mut agreed);
    let mut met = Vec::new();
    match turned {
        [0, 0, 0] => met.push(Met::Agreed(own)),
        _ => {
            assert_eq!(answer(&mut image.to_vec()), 1);
            met.push(Met::InPlaceOf(own));
        }
    }
    let bits = turned.map(u8::count_ones);
    for mask in (0..3).filter(|_| bits.iter().sum::<u32>() == 1) {
        let bit = turned[mask].trailing_zeros();
        met.extend((bits[mask] == 1).then_some(Met::Turned { mask, bit }));
    }
    met.push(Met::Together {
        masks: bits.iter().filter(|bits| **bits > 0).count(),
        several: bits.iter().any(|bits| *bits > 1),
    });
    met.extend((0..8).map(|number| Met::Module {
        number,
        kept: way(kept, number),
        is: way(right, number),
    }));
    let met = met.into_iter().map(|met| (call, met));
    MET.with_borrow_mut(|all| all.extend(met));
}

/// The model; notes what each call meets.
const NOTING: Calls = Calls {
    step: |image, frame, room| {
        let own = |image: &mut [u8]| calls::step(image, frame, &mut room.to_vec());
        note(Call::Step, image, own);
        calls::step(image, frame, room)
    },
    step_books: |image, frame, room, books| {
        let own = |image: &mut [u8]| {
            calls::step_books(image, frame, &mut room.to_vec(), &mut books.to_vec())
        };
        note(Call::StepBooks, image, own);
        calls::step_books(image, frame, room, books)
    },
    pass: |image, frames, room| {
        let own = |image: &mut [u8]| calls::pass(image, frames, &mut room.to_vec()).0;
        note(Call::Pass, image, own);
        calls::pass(image, frames, room)
    },
    modules_on: |image, _| {
        note(Call::ModulesOn, image, |image| calls::modules_on(image).0);
        calls::modules_on(image)
    },
    beacon_basic: |image, text| {
        let own = |image: &mut [u8]| calls::beacon_basic(image, &mut text.to_vec()).0;
        note(Call::Basic, image, own);
        calls::beacon_basic(image, text)
    },
    beacon_complete: |image, text| {
        let own = |image: &mut [u8]| calls::beacon_complete(image, &mut text.to_vec()).0;
        note(Call::Complete, image, own);
        calls::beacon_complete(image, text)
    },
    beacon_extended: |image, text| {
        let own = |image: &mut [u8]| calls::beacon_extended(image, &mut text.to_vec()).0;
        note(Call::Extended, image, own);
        calls::beacon_extended(image, text)
    },
    ..MODEL
};

/// What a group has met of all that is wanted of each call.
fn meets(group: &str, wanted: impl Fn() -> Vec<Met>) {
    common::run(group, &[NOTING, MODEL]).expect("no difference");
    let met = MET.take();
    for (call, answers) in ANSWERS {
        let agreed = answers.iter().copied().map(Met::Agreed);
        let refused = answers.iter().copied().map(Met::InPlaceOf);
        for wanted in agreed.chain(refused).chain(wanted()) {
            let wanted = (call, wanted);
            assert!(met.contains(&wanted), "not met: {wanted:?}");
        }
    }
}

#[test]
fn every_call_meets_every_bit_turned_in_place_of_every_answer() {
    meets("every bit of a mask turned", || {
        let mut wanted = Vec::new();
        for mask in 0..3 {
            wanted.extend((0..8).map(|bit| Met::Turned { mask, bit }));
        }
        for masks in 1..=3 {
            wanted.extend([false, true].map(|several| Met::Together { masks, several }));
        }
        wanted
    });
}

#[test]
fn every_call_meets_every_change_of_every_module() {
    meets("modules changed with and without their masks", || {
        let ways = [false, true].map(|requested| SORTS.map(|sort| (requested, sort)));
        let ways = ways.as_flattened();
        let mut wanted = Vec::new();
        for number in 0..8 {
            for &kept in ways {
                wanted.extend(ways.iter().map(|&is| Met::Module { number, kept, is }));
            }
        }
        wanted
    });
}

thread_local! {
    /// The masks of images that are counted, as one number.
    static COUNTED: RefCell<BTreeSet<u32>> = const { RefCell::new(BTreeSet::new()) };
}

#[test]
fn all_masks_that_there_can_be_are_counted() {
    let noting = Calls {
        modules_on: |image, _| {
            let [requested, on, failed] = MASKS.map(|place| image[place]);
            let masks = u32::from_le_bytes([requested, on, failed, 0]);
            COUNTED.with_borrow_mut(|all| all.insert(masks));
            calls::modules_on(image)
        },
        ..MODEL
    };
    common::run("every three masks that agree", &[noting, MODEL]).expect("no difference");
    // Every request, and on, off or failed for each of the eight.
    assert_eq!(COUNTED.take().len(), 256 * 3_usize.pow(8));
}

/// What changes a module's request.
#[derive(Clone, Copy, PartialEq, Eq, PartialOrd, Ord, Debug)]
enum By {
    Order,
    Timed,
    End,
    Fall,
}

/// A bit of a mask that a frame changes.
#[derive(PartialEq, Eq, PartialOrd, Ord, Debug)]
enum Changed {
    Request {
        number: usize,
        on: bool,
        by: By,
    },
    Power {
        number: usize,
        from: Sort,
        to: Sort,
        short: bool,
    },
}

thread_local! {
    static CHANGED: RefCell<BTreeSet<Changed>> = const { RefCell::new(BTreeSet::new()) };
}

fn sort(power: Power) -> Sort {
    match power {
        Power::On { .. } => Sort::On,
        Power::Off(_) => Sort::Off,
        Power::Failed(_) => Sort::Failed,
    }
}

/// The bits that a frame has changed between two states, and why.
fn changed(frame: &[u8], before: &State, after: &State) -> Vec<Changed> {
    let by = match (frame[0], before.mode, after.mode) {
        (ORDER, ..) => By::Order,
        (TIMED, ..) => By::Timed,
        (_, Mode::Safe, Mode::Recovery) => By::Fall,
        // A crossing upward changes none: what it finds is an end that runs out.
        _ => By::End,
    };
    let mut changed = Vec::new();
    let modules = before.modules.iter().zip(&after.modules);
    for (number, (old, new)) in modules.enumerate() {
        if old.requested != new.requested {
            let on = new.requested;
            changed.push(Changed::Request { number, on, by });
        }
        let (from, to) = (sort(old.power), sort(new.power));
        if from != to {
            let short = frame[1] >> number & 1 == 1;
            changed.push(Changed::Power {
                number,
                from,
                to,
                short,
            });
        }
    }
    changed
}

#[test]
fn frames_change_the_masks_for_every_reason() {
    let noting = Calls {
        step: |image, frame, room| {
            let before = image::load(image);
            let answer = calls::step(image, frame, room);
            if let (Some(before), Some(after), 0) = (before, image::load(image), answer) {
                let changed = changed(frame, &before, &after);
                CHANGED.with_borrow_mut(|all| all.extend(changed));
            }
            answer
        },
        ..MODEL
    };
    common::run("frames that change the masks", &[noting, MODEL]).expect("no difference");
    let met = CHANGED.take();
    for (number, row) in MODULES.iter().enumerate() {
        let request = |on, by| Changed::Request { number, on, by };
        let power = |from, to, short| Changed::Power {
            number,
            from,
            to,
            short,
        };
        let mut wanted = vec![
            request(true, By::Order),
            request(false, By::Order),
            power(Sort::Off, Sort::On, false),
            power(Sort::Off, Sort::Failed, true),
            power(Sort::On, Sort::Off, false),
            power(Sort::On, Sort::Off, true),
            power(Sort::On, Sort::Failed, true),
            power(Sort::Failed, Sort::On, false),
        ];
        let mission = [
            request(true, By::Timed),
            request(false, By::End),
            request(false, By::Fall),
        ];
        match row.core {
            // Orders alone change it.
            true => assert!(!mission.iter().any(|own| met.contains(own)), "{number}"),
            false => wanted.extend(mission),
        }
        // What drops a request makes none.
        for never in [By::End, By::Fall].map(|by| request(true, by)) {
            assert!(!met.contains(&never), "met: {never:?}");
        }
        for wanted in wanted {
            assert!(met.contains(&wanted), "not met: {wanted:?}");
        }
    }
}
