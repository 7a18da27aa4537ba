//! The differential tests' own test, as `harness.rs`: wrong masks are found, those that a
//! frame leaves, those that a check takes, and those that are counted; also where the
//! model has the same fault.

mod common;
mod masks;
mod told;

use common::run;
use differential::sides::{Calls, Counted, MODEL};
use masks::{checks, counts};
use told::{frames, told};

const FRAMES: &str = "frames that change the masks";
const COUNTS: &str = "every three masks that agree";
const TURNED: &str = "every bit of a mask turned";
const CHANGED: &str = "modules changed with and without their masks";

/// What a group says where both sides have the same fault.
fn told_of_both(group: &str, name: &str, faulty: Calls) -> String {
    run(group, &[faulty, faulty]).expect_err(name)
}

#[test]
fn every_frame_that_leaves_a_mask_is_found_and_one_frame_shows_it() {
    for (name, step) in masks::frames::LEFT {
        let faulty = Calls { step, ..MODEL };
        for told in [told(FRAMES, faulty), told_of_both(FRAMES, name, faulty)] {
            assert_eq!(frames(&told), 1, "{name}\n{told}");
        }
    }
}

/// One module's change leaves no mask that it touches with as many ones as before.
const UNCHANGED: [&str; 1] = ["goes by the ones of each mask"];

#[test]
fn every_check_that_takes_other_masks_is_found() {
    for (name, faulty) in checks::TAKEN {
        for sides in [[faulty, MODEL], [faulty, faulty]] {
            assert!(run(TURNED, &sides).is_err(), "{name}");
            let found = run(CHANGED, &sides).is_err();
            assert_eq!(found, !UNCHANGED.contains(&name), "{name}");
        }
    }
}

/// Each call has its own check 1.
#[test]
fn a_call_that_takes_other_masks_by_itself_is_found() {
    for (name, wrong) in checks::TAKEN {
        let alone = [
            Calls {
                step: wrong.step,
                ..MODEL
            },
            Calls {
                step_books: wrong.step_books,
                ..MODEL
            },
            Calls {
                pass: wrong.pass,
                ..MODEL
            },
            Calls {
                modules_on: wrong.modules_on,
                ..MODEL
            },
            Calls {
                beacon_basic: wrong.beacon_basic,
                ..MODEL
            },
            Calls {
                beacon_complete: wrong.beacon_complete,
                ..MODEL
            },
            Calls {
                beacon_extended: wrong.beacon_extended,
                ..MODEL
            },
        ];
        for faulty in alone {
            told(TURNED, faulty);
            told_of_both(TURNED, name, faulty);
        }
    }
}

/// A side that counts so.
fn counting(modules_on: Counted) -> Calls {
    Calls {
        modules_on,
        ..MODEL
    }
}

#[test]
fn every_wrong_count_is_found() {
    for (name, modules_on) in counts::COUNTED {
        let faulty = counting(modules_on);
        for group in [COUNTS, FRAMES] {
            for told in [told(group, faulty), told_of_both(group, name, faulty)] {
                assert!(told.starts_with("input:   06 "), "{name}\n{told}");
            }
        }
    }
}

#[test]
fn every_wrong_count_at_a_refusal_is_found() {
    for (name, modules_on) in counts::REFUSED {
        let faulty = counting(modules_on);
        for group in [TURNED, CHANGED] {
            told(group, faulty);
            told_of_both(group, name, faulty);
        }
        told("damaged images", faulty);
    }
}
