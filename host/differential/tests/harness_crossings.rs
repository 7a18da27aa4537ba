//! The differential tests' own test, as `harness.rs`: judgements of the mode that move
//! requests in a wrong way are found, also where the model has the same fault; and so are
//! boards on which the better battery does harm.

mod common;
mod crossings;
mod promises;
mod told;

use common::run;
use crossings::{FORMER, JUDGED};
use differential::pairs;
use differential::rng::Rng;
use differential::sides::{Calls, MODEL};
use differential::two_craft::{Broken, Pair};
use model::image;
use promises::HARMFUL;
use std::collections::BTreeSet;
use told::{frames, told};

const REQUESTS: &str = "requests about a crossing";
const BETWEEN: &str = "core modules ordered between crossings";
const TWO_CRAFT: &str = "two craft";

#[test]
fn every_wrong_judgement_is_found_and_one_frame_shows_it() {
    for (name, step) in JUDGED {
        let faulty = Calls { step, ..MODEL };
        for group in [REQUESTS, BETWEEN] {
            let of_both = run(group, &[faulty, faulty]).expect_err(name);
            for told in [told(group, faulty), of_both] {
                assert_eq!(frames(&told), 1, "{group}: {name}\n{told}");
            }
        }
    }
}

/// From the fresh start none of the mission four gets to be requested in RECOVERY.
const UNREACHED: [&str; 2] = [
    "drops the mission four as the mode rises",
    "drops the mission four while in RECOVERY",
];

#[test]
fn every_other_wrong_judgement_is_found_on_two_craft() {
    for (name, step) in JUDGED {
        let faulty = Calls { step, ..MODEL };
        match run(TWO_CRAFT, &[faulty, MODEL]) {
            Ok(_) => assert!(UNREACHED.contains(&name), "{name}"),
            Err(told) => {
                assert!(!UNREACHED.contains(&name), "{name}\n{told}");
                assert_eq!(frames(&told), 1, "{name}\n{told}");
            }
        }
    }
}

/// Both craft are judged in the same ticks, so that this is done to both.
const ALIKE: [&str; 1] = ["requests the core four in every judgement"];

/// Both sides have the fault: it shows in what is promised of the second craft alone.
#[test]
fn every_other_wrong_judgement_does_harm_with_a_better_battery() {
    for (name, step) in JUDGED {
        let faulty = Calls { step, ..MODEL };
        let harmless = UNREACHED.contains(&name) || ALIKE.contains(&name);
        match run(TWO_CRAFT, &[faulty, faulty]) {
            Ok(_) => assert!(harmless, "{name}"),
            Err(told) => {
                assert!(!harmless, "{name}\n{told}");
                assert!(told.starts_with("two craft from 06 "), "{name}\n{told}");
            }
        }
    }
}

/// A core module is ordered off, and after the readings the second craft alone is judged to
/// rise: it requests the module, and the first does not.
#[test]
fn the_former_rule_comes_out_short() {
    let (name, step) = FORMER;
    let faulty = Calls { step, ..MODEL };
    let told = run(TWO_CRAFT, &[faulty, faulty]).expect_err(name);
    assert!(told.contains("\nbroken: [Core], "), "{told}");
    let ticks = told.lines().filter(|line| line.starts_with("  01 00"));
    assert_eq!(frames(&told) - ticks.count(), 2, "{told}");
}

/// Where the first rises later than the second, what is requested in the first alone is
/// broken too, and what is on there alone.
#[test]
fn the_former_rule_breaks_all_but_the_mode() {
    let (_, step) = FORMER;
    let faulty = Calls { step, ..MODEL };
    let mut rng = Rng::new(1);
    let start = pairs::start();
    let mut broken = BTreeSet::new();
    for _ in 0..200 {
        let mut pair = Pair::at(&image::save(&start));
        for leg in pairs::flight(&mut rng, &start) {
            for _ in 0..leg.2 {
                pair.step(&[faulty, faulty], &leg).expect("no difference");
                broken.extend(pair.broken());
            }
        }
    }
    let wanted = [Broken::Requested, Broken::On, Broken::Core];
    assert_eq!(broken, BTreeSet::from(wanted));
}

/// Each promise can be broken, so that each is looked at.
#[test]
fn every_harmful_board_breaks_its_promise() {
    for (name, broken, step) in HARMFUL {
        let faulty = Calls { step, ..MODEL };
        let told = run(TWO_CRAFT, &[faulty, faulty]).expect_err(name);
        let wanted = format!("\nbroken: [{broken:?}], ");
        assert!(told.contains(&wanted), "{name}\n{told}");
    }
}
