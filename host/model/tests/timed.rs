//! Orders with an end: both sides of every number, and what replaces or drops
//! an end.

use model::frame::Body;
use model::state::{Mode, Power, TRIES};
use model::table::{FROM_GROUND, FROM_PAYLOAD, MISSION, ORDER, PAYLOAD, TIMED};
use model::{frame, image, report, step, step_log, State};

const DONE: u8 = 0;

fn answer(state: &mut State, frame: &[u8]) -> u8 {
    match step::step(state, frame, report::BYTES) {
        Ok(report) => report.answer,
        Err(refusal) => refusal,
    }
}

fn ticks(state: &mut State, count: u32) {
    for _ in 0..count {
        assert_eq!(answer(state, &[0x01, 0]), DONE);
    }
}

fn timed(origin: u8, serial: u16, module: u8, minutes: u16) -> [u8; 7] {
    let ([high, low], [more, less]) = (serial.to_be_bytes(), minutes.to_be_bytes());
    [TIMED, origin, high, low, module, more, less]
}

fn plain(serial: u16, module: u8, on: bool) -> [u8; 6] {
    let [high, low] = serial.to_be_bytes();
    [ORDER, FROM_GROUND, high, low, module, on.into()]
}

/// A charged board.
fn board(mode: Mode) -> State {
    let mut state = State::fresh();
    state.mode = mode;
    state.tension = if mode == Mode::Safe { 8_000 } else { 7_200 };
    state
}

/// A board in SAFE on which every module is on, the mission four with ends.
fn running(ends: [u32; 4]) -> State {
    let mut state = board(Mode::Safe);
    for module in &mut state.modules {
        module.requested = true;
        module.power = Power::On {
            tries: TRIES,
            seconds: 0,
        };
    }
    state.gather_masks();
    state.ends = ends;
    state
}

#[test]
fn minutes_on_either_side() {
    for (minutes, wanted, end) in [
        (0, 6, 0),
        (1, DONE, 60),
        (1_440, DONE, 86_400),
        (1_441, 6, 0),
        (u16::MAX, 6, 0),
    ] {
        let mut state = board(Mode::Safe);
        let order = timed(FROM_GROUND, 1, 6, minutes);
        assert_eq!(answer(&mut state, &order), wanted, "{minutes}");
        assert_eq!(state.ends, [0, 0, end, 0], "{minutes}");
        assert_eq!(state.last.ground, (wanted == DONE).into());
        assert!(state.in_range());
    }
}

#[test]
fn modules_by_origin() {
    for module in (0..=8).chain([255]) {
        let of_mission = MISSION.contains(&module);
        let ground = if of_mission { DONE } else { 6 };
        let payload = match module {
            PAYLOAD => DONE,
            _ if of_mission => 7,
            _ => 6,
        };
        for (origin, wanted) in [
            (0, 6),
            (FROM_GROUND, ground),
            (FROM_PAYLOAD, payload),
            (3, 6),
        ] {
            let mut state = board(Mode::Safe);
            let order = timed(origin, 1, module, 20);
            assert_eq!(answer(&mut state, &order), wanted, "{origin} {module}");
            // 6 goes before 7.
            let order = timed(origin, 2, module, 0);
            assert_eq!(answer(&mut state, &order), 6, "{origin} {module}");
        }
    }
}

#[test]
fn a_body_is_read_as_the_page_has_it() {
    let frame = frame::read(&[0x06, 2, 0, 9, 4, 0x01, 0x02]).expect("it is read");
    let (module, minutes) = (PAYLOAD, 258);
    assert_eq!(frame.body, Body::Timed { module, minutes });
}

#[test]
fn other_lengths_are_refused() {
    for length in 1..=8 {
        let mut order = timed(FROM_GROUND, 1, 3, 1).to_vec();
        order.resize(length, 0);
        let wanted = if length == 7 { DONE } else { 5 };
        assert_eq!(answer(&mut board(Mode::Safe), &order), wanted, "{length}");
    }
}

#[test]
fn serials_are_those_of_orders_and_go_before_10() {
    let ends = [7, 0, 9, 0];
    for (mode, fresh) in [
        (Mode::Waiting(0), 10),
        (Mode::Settling(900), 10),
        (Mode::Recovery, 10),
        (Mode::Safe, DONE),
    ] {
        for (serial, wanted) in [
            (5, 8),
            (6, fresh),
            (5 + 32_767, fresh),
            (5 + 32_768, 9),
            (4, 9),
        ] {
            let mut state = board(mode);
            state.ends = ends;
            // The number that this takes is the one that a timed order repeats.
            assert_eq!(answer(&mut state, &plain(5, 1, true)), DONE);
            let before = state.clone();
            let order = timed(FROM_GROUND, serial, 4, 1);
            assert_eq!(answer(&mut state, &order), wanted, "{mode:?} {serial}");
            let used = if wanted == fresh { serial } else { 5 };
            assert_eq!(state.last.ground, used);
            if wanted == DONE {
                assert_eq!(state.ends, [7, 60, 9, 0]);
            } else {
                state.last = before.last;
                assert_eq!(state, before);
            }
        }
    }
}

#[test]
fn an_end_of_1_and_of_2() {
    let mut state = running([1, 2, 0, 86_400]);
    ticks(&mut state, 1);
    assert_eq!(state.ends, [0, 1, 0, 86_399]);
    assert_eq!(state.masks.requested, 0xF7);
    assert_eq!(state.masks.on, 0xF7);
    ticks(&mut state, 1);
    assert_eq!(state.ends, [0, 0, 0, 86_398]);
    assert_eq!(state.masks.requested, 0xE7);
    assert_eq!(state.masks.on, 0xE7);
}

#[test]
fn a_minute_is_60_ticks() {
    let mut state = board(Mode::Safe);
    assert_eq!(
        answer(&mut state, &timed(FROM_PAYLOAD, 1, PAYLOAD, 1)),
        DONE
    );
    assert_eq!(state.masks.on, 0);
    ticks(&mut state, 59);
    assert_eq!(state.masks.requested, 0x37);
    assert_eq!(state.masks.on, 0x37);
    ticks(&mut state, 1);
    assert_eq!(state.masks.requested, 0x27);
    assert_eq!(state.masks.on, 0x27);
}

#[test]
fn a_failed_module_stays_failed_as_its_end_comes() {
    let mut state = running([0, 0, 0, 1]);
    state.modules[7].power = Power::Failed(0);
    state.gather_masks();
    ticks(&mut state, 1);
    assert!(!state.modules[7].requested);
    assert_eq!(state.modules[7].power, Power::Failed(0));
}

#[test]
fn ends_stand_still_in_deploy_wait_and_in_no_other_mode() {
    let ends = [1, 2, 60, 86_400];
    for mode in [Mode::Waiting(0), Mode::Settling(2), Mode::Settling(1)] {
        let mut state = running(ends);
        state.mode = mode;
        ticks(&mut state, 1);
        assert_eq!(state.ends, ends, "{mode:?}");
        assert_eq!(state.masks.requested, 0xFF, "{mode:?}");
    }
    let mut state = running(ends);
    state.mode = Mode::Recovery;
    state.tension = 7_200;
    ticks(&mut state, 1);
    assert_eq!(state.ends, [0, 1, 59, 86_399]);
    assert_eq!(state.masks.requested, 0xF7);
}

#[test]
fn an_end_falls_too_where_nothing_is_requested() {
    let mut state = board(Mode::Safe);
    state.ends = [2; 4];
    ticks(&mut state, 1);
    assert_eq!(state.ends, [1; 4]);
}

#[test]
fn a_done_order_drops_or_replaces_its_module_s_end_and_no_other() {
    for (place, module) in MISSION.into_iter().enumerate() {
        for on in [false, true] {
            let mut state = running([11, 12, 13, 14]);
            assert_eq!(answer(&mut state, &plain(1, module, on)), DONE);
            let mut wanted = [11, 12, 13, 14];
            wanted[place] = 0;
            assert_eq!(state.ends, wanted);
        }
        let mut state = running([11, 12, 13, 14]);
        let order = timed(FROM_GROUND, 1, module, 2);
        assert_eq!(answer(&mut state, &order), DONE);
        let mut wanted = [11, 12, 13, 14];
        wanted[place] = 120;
        assert_eq!(state.ends, wanted);
    }
    for core in [0, 1, 2, 5] {
        let mut state = running([11, 12, 13, 14]);
        assert_eq!(answer(&mut state, &plain(1, core, false)), DONE);
        assert_eq!(state.ends, [11, 12, 13, 14]);
    }
}

#[test]
fn an_order_that_is_not_done_leaves_the_end() {
    // "On" in RECOVERY, a repeat and a stale one in SAFE.
    for (mode, serial, wanted) in [(Mode::Recovery, 1, 10), (Mode::Safe, 0, 8)] {
        let mut state = running([11, 12, 13, 14]);
        state.mode = mode;
        assert_eq!(answer(&mut state, &plain(serial, 4, true)), wanted);
        assert_eq!(state.ends, [11, 12, 13, 14]);
    }
    let mut state = running([11, 12, 13, 14]);
    assert_eq!(answer(&mut state, &plain(65_535, 4, false)), 9);
    assert_eq!(state.ends, [11, 12, 13, 14]);
}

#[test]
fn crossings_drop_ends_and_requests_downward_only() {
    // A second less of each; that of PAYLOAD was the last.
    let a_second_on = ([10, 0, 99, 86_399], 0xEF);
    for (mode, tension, (ends, requested)) in [
        (Mode::Safe, 7_000, a_second_on),
        (Mode::Safe, 6_999, ([0; 4], 0x27)),
        (Mode::Recovery, 7_400, a_second_on),
        (Mode::Recovery, 7_401, a_second_on),
    ] {
        let mut state = running([11, 1, 100, 86_400]);
        state.mode = mode;
        state.control = 29;
        state.tension = tension;
        ticks(&mut state, 1);
        assert_eq!(state.ends, ends, "{mode:?} {tension}");
        assert_eq!(state.masks.requested, requested, "{mode:?} {tension}");
    }
}

#[test]
fn the_longest_end_and_one_more() {
    for place in 0..4 {
        let mut state = State::fresh();
        state.ends[place] = 86_400;
        assert_eq!(answer(&mut state, &[0x01, 0]), DONE);
        let mut saved = image::save(&state);
        assert_eq!(image::load(&saved), Some(state.clone()));
        state.ends[place] = 86_401;
        assert_eq!(answer(&mut state, &[0x01, 0]), 1);
        let begin = image::at::ENDS + 4 * place;
        assert_eq!(saved[begin..begin + 4], [0x80, 0x51, 0x01, 0]);
        for (byte, value) in [(0, 0x81), (2, 0x02), (3, 0x01)] {
            let kept = saved[begin + byte];
            saved[begin + byte] = value;
            assert_eq!(image::load(&saved), None);
            saved[begin + byte] = kept;
        }
    }
}

#[test]
fn a_stream_is_cut_after_7_bytes() {
    // A timed order too early, a tick, half a timed order.
    let input = [6, 1, 0, 1, 4, 0, 20, 1, 0, 6, 1, 0];
    let log = "\
n kind origin serial answer mode requested on failed beacon
1 06 1 1 10 0 27 00 00 0
2 01 0 0 0 0 27 00 00 0
3 refused 5
";
    assert_eq!(step_log(&input), log);
}
