//! The names of modules, modes and beacons, and their numbers, and the limits of the tracker
//! and of the books: those of the library, the model and the header.

use ems::{answer, Beacon, Craft, Mode, Module};
use model::table::{FROM_GROUND, GREETING, KINDS, MODULES, ORDER, TIMED};
use model::{books, track};

const HEADER: &str = include_str!("../../../include/ems.h");

#[test]
fn the_modules_are_the_model_s() {
    assert_eq!(Module::ALL.len(), MODULES.len());
    for (module, row) in Module::ALL.into_iter().zip(&MODULES) {
        assert_eq!(module.name(), row.name);
        assert_eq!(module.number(), row.number);
        assert_eq!(module.bit(), row.bit());
        assert_eq!(Module::MISSION & module.bit() == 0, row.core);
    }
}

#[test]
fn the_modules_are_those_that_the_library_takes() {
    for number in 0..=u8::MAX {
        let order = [ORDER, FROM_GROUND, 0, 1, number, 1];
        let wanted = match Module::of(number) {
            Some(module) if Module::MISSION & module.bit() != 0 => answer::NOT_NOW,
            Some(_) => answer::DONE,
            None => answer::BAD_FIELD,
        };
        let report = Craft::fresh().report_on(&order);
        let given = report.map_or_else(|refusal| refusal, |report| report.answer);
        assert_eq!(given, wanted, "module {number}");
    }
}

#[test]
fn the_mission_four_are_those_that_can_be_timed() {
    for number in 0..=u8::MAX {
        let order = [TIMED, FROM_GROUND, 0, 1, number, 0, 20];
        let wanted = match Module::of(number) {
            Some(module) if Module::MISSION & module.bit() != 0 => answer::NOT_NOW,
            _ => answer::BAD_FIELD,
        };
        let report = Craft::fresh().report_on(&order);
        let given = report.map_or_else(|refusal| refusal, |report| report.answer);
        assert_eq!(given, wanted, "module {number}");
    }
}

#[test]
fn the_kinds_are_the_header_s() {
    for kind in &KINDS {
        let name = kind.name.split(' ').next().unwrap_or_default();
        let line = format!(
            "    EMS_KIND_{} = 0x{:02X},\n",
            name.to_uppercase(),
            kind.byte
        );
        assert!(HEADER.contains(&line), "{line}");
    }
}

#[test]
fn a_mask_is_read_as_its_modules() {
    for mask in 0..=u8::MAX {
        let bits = Module::in_mask(mask).map(Module::bit);
        assert_eq!(bits.sum::<u8>(), mask);
    }
}

#[test]
fn the_modes_are_the_header_s() {
    let modes = Mode::ALL.map(|mode| format!("EMS_{mode} = {}", mode.number()));
    assert!(HEADER.contains(&format!("enum ems_mode {{ {} }};\n", modes.join(", "))));
    for number in 0..=u8::MAX {
        let found = Mode::of(number);
        assert!(found.is_none_or(|mode| mode.number() == number));
        assert_eq!(found.is_some(), usize::from(number) < Mode::ALL.len());
    }
}

/// From the fresh start to SAFE and to RECOVERY again, a mode after the other,
/// with the beacon that each has; the first in SAFE has the message.
#[test]
fn a_flight_meets_the_modes_and_all_beacons() {
    let mut craft = Craft::fresh();
    let (mut modes, mut beacons) = (Vec::new(), Vec::new());
    let mut greeting = [0; 22];
    greeting[..8].copy_from_slice(&[GREETING, FROM_GROUND, 0, 1, 1, 2, b'H', b'I']);
    let frames = [
        (&[0x03, 1][..], 1),
        (&[0x02, 0x1E, 0x78], 1),
        (&greeting, 1),
        (&[0x01, 0], 1_200),
    ];
    let then = [(&[0x02, 0x13, 0x88][..], 1), (&[0x01, 0], 600)];
    for (frame, times) in frames.into_iter().chain(then) {
        for _ in 0..times {
            let report = craft.report_on(frame).expect("a report");
            modes.extend(Mode::of(report.mode));
            beacons.extend(Beacon::of(report.beacon));
        }
    }
    modes.dedup();
    beacons.dedup();
    let (recovery, safe) = (Mode::Recovery, Mode::Safe);
    assert_eq!(modes, [Mode::DeployWait, recovery, safe, recovery]);
    let wanted = [Beacon::Extended, Beacon::Complete, Beacon::Basic];
    assert_eq!(beacons, wanted);
    assert!(Mode::DeployWait < recovery && recovery < safe);
}

#[test]
fn the_beacons_are_the_header_s() {
    for beacon in Beacon::ALL {
        let name = beacon.name().to_uppercase();
        let line = format!("    EMS_DUE_{name} = {}", beacon.number());
        assert!(HEADER.contains(&line), "{line}");
    }
}

#[test]
fn the_beacons_are_the_icd_s() {
    let icd = include_str!("../../../docs/ICD.md");
    let names = Beacon::ALL.map(|beacon| format!("{} {beacon}", beacon.number()));
    assert!(icd.contains(&format!("| beacon | 0 none, {}:", names.join(", "))));
}

#[test]
fn the_tracker_s_limits_are_the_model_s() {
    assert_eq!(ems::MOST_MILLIVOLTS, track::MOST_MILLIVOLTS);
    assert_eq!(ems::MOST_MILLIAMPERES, track::MOST_MILLIAMPERES);
    assert_eq!(ems::LONGEST_STEP, track::LONGEST_STEP);
}

#[test]
fn the_books_limits_are_the_model_s() {
    assert_eq!(ems::BOOKS_NUMBERS, books::NUMBERS);
    assert_eq!(ems::BOOKS_NUMBERS, 3 * Module::ALL.len());
    assert_eq!(ems::MOST_SECONDS, books::MOST_SECONDS);
}
