//! The page's "Numbers on either side", and its example of a log.

use model::frame::{Body, Frame};
use model::state::{Mode, Module, Power};
use model::table::{self, ModuleRow};
use model::{image, morse, report, step, step_log, State};

fn answer(state: &mut State, frame: &[u8]) -> u8 {
    match step::step(state, frame, report::BYTES) {
        Ok(report) => report.answer,
        Err(refusal) => refusal,
    }
}

/// An order of the ground for MCS, on.
fn order(serial: u16) -> [u8; 6] {
    let [high, low] = serial.to_be_bytes();
    [0x04, 1, high, low, 0, 1]
}

#[test]
fn serials_around_the_wrap() {
    for (last, serial, wanted) in [(65_535, 0, 0), (0, 0, 8), (0, 32_767, 0), (0, 32_768, 9)] {
        let mut state = State::fresh();
        state.last.ground = last;
        assert_eq!(
            answer(&mut state, &order(serial)),
            wanted,
            "{last} {serial}"
        );
    }
}

#[test]
fn crossings_at_equality() {
    for (mode, tension, wanted) in [
        (Mode::Recovery, 7_400, Mode::Recovery),
        (Mode::Recovery, 7_401, Mode::Safe),
        (Mode::Safe, 7_000, Mode::Safe),
        (Mode::Safe, 6_999, Mode::Recovery),
    ] {
        let mut state = State::fresh();
        state.mode = mode;
        state.control = 29;
        state.tension = tension;
        assert_eq!(answer(&mut state, &[0x01, 0]), 0);
        assert_eq!(state.mode, wanted, "{tension}");
    }
}

/// A module by its name.
fn module<'a>(state: &'a mut State, name: &str) -> &'a mut Module {
    let mut rows = state.modules.iter_mut().zip(&table::MODULES);
    let found = rows.find(|(_, row)| row.name == name);
    found.expect("there is such a module").0
}

#[test]
fn a_module_at_its_last_try_and_its_last_second() {
    let mut state = State::fresh();
    state.mode = Mode::Recovery;
    module(&mut state, "MCS").power = Power::Off(1);
    module(&mut state, "COMM1").power = Power::Failed(1);
    state.gather_masks();
    assert_eq!(answer(&mut state, &[0x01, 0x01]), 0);
    assert_eq!(module(&mut state, "MCS").power, Power::Failed(600));
    assert_eq!(module(&mut state, "COMM1").power, Power::Failed(0));
}

#[test]
fn lengths_in_units() {
    for (text, units) in [
        ("E", 1),
        ("E E", 9),
        ("R", 7),
        ("PARIS", 43),
        ("EMS R 7000", 119),
        // The longest signs: a comma's units are as many as a zero's.
        ("0", 19),
        (",", 19),
        (".", 17),
        ("?", 15),
        ("/", 13),
    ] {
        let keyed = morse::key(text.as_bytes()).expect("it can be keyed");
        assert_eq!(keyed.len(), units, "{text}");
        assert_eq!(morse::read(&keyed), Ok(text.into()));
    }
}

#[test]
fn the_two_ways_out_of_deploy_wait() {
    for (deployed, ticks) in [(true, 901), (false, 87_300)] {
        let mut state = State::fresh();
        assert_eq!(answer(&mut state, &[0x03, deployed.into()]), 0);
        let mut taken = 0;
        while state.mode != Mode::Recovery {
            assert_eq!(answer(&mut state, &[0x01, 0xFF]), 0);
            taken += 1;
        }
        assert_eq!(taken, ticks);
    }
}

#[test]
fn battery_at_its_ends() {
    for (tension, wanted) in [(4_999_u16, 6), (9_001, 6), (5_000, 0), (9_000, 0)] {
        let [high, low] = tension.to_be_bytes();
        let mut state = State::fresh();
        assert_eq!(answer(&mut state, &[0x02, high, low]), wanted, "{tension}");
    }
}

#[test]
fn the_log_of_the_page() {
    let input = [
        0x03, 0x01, 0x04, 0x01, 0x00, 0x01, 0x04, 0x01, 0x04, 0x01, 0x00, 0x01, 0x04, 0x01, 0x04,
        0x01, 0x00, 0x02, 0x02, 0x00, 0x02, 0x1D, 0x1A, 0x01, 0x00,
    ];
    let log = "\
n kind origin serial answer mode requested on failed beacon
1 03 0 0 0 0 27 00 00 0
2 04 1 1 10 0 27 00 00 0
3 04 1 1 8 0 27 00 00 0
4 04 1 2 0 0 23 00 00 0
5 02 0 0 0 0 23 00 00 0
6 01 0 0 0 0 23 00 00 0
";
    assert_eq!(step_log(&input), log);
}

#[test]
fn the_table_agrees_with_itself() {
    for kind in &table::KINDS {
        let body: usize = kind.fields.iter().map(|field| field.bytes).sum();
        assert_eq!(kind.total, 1 + body + kind.text, "{}", kind.name);
    }
    for (place, row) in table::MODULES.iter().enumerate() {
        assert_eq!(usize::from(row.number), place, "{}", row.name);
        assert_eq!(row.name == "PAYLOAD", row.number == table::PAYLOAD);
    }
    let core = table::MODULES.iter().filter(|row| row.core);
    assert_eq!(core.map(ModuleRow::bit).sum::<u8>(), 0x27);
    let others = table::MODULES.iter().filter(|row| !row.core);
    assert!(others.map(|row| row.number).eq(table::MISSION));
}

#[test]
fn six_goes_before_seven() {
    // Module 8 of the payload; thresholds of the payload the wrong way round.
    let mut state = State::fresh();
    assert_eq!(answer(&mut state, &[0x04, 2, 0, 1, 8, 1]), 6);
    let crossed = [0x05, 2, 0, 1, 0x1B, 0x58, 0x1C, 0xE8];
    assert_eq!(answer(&mut state, &crossed), 6);
    let straight = [0x05, 2, 0, 1, 0x1C, 0xE8, 0x1B, 0x58];
    assert_eq!(answer(&mut state, &straight), 7);
}

#[test]
fn a_body_is_read_as_the_page_has_it() {
    let Ok(Frame { body, .. }) = model::frame::read(&[0x05, 1, 0, 9, 0x1C, 0xE8, 0x1B, 0x58])
    else {
        panic!("thresholds are refused");
    };
    let (ascend, descend) = (7_400, 7_000);
    assert_eq!(body, Body::Thresholds { ascend, descend });
}

#[test]
fn the_fresh_image_is_loaded_and_no_other_version() {
    let mut saved = image::save(&State::fresh());
    assert_eq!(image::load(&saved), Some(State::fresh()));
    assert_eq!(image::load(&saved[..image::BYTES - 1]), None);
    for version in [5, 7] {
        saved[image::at::VERSION] = version;
        assert_eq!(image::load(&saved), None);
    }
}
