//! Masks kept beside the modules: what moves them, what is refused where they and the
//! modules disagree, and how many modules are on.

use model::image::{self, at};
use model::masks::Masks;
use model::state::{Mode, Power};
use model::{calls, report, step, State};

const MASKS: [usize; 3] = [at::REQUESTED, at::ON, at::FAILED];

const ON: Power = Power::On {
    tries: 5,
    seconds: 0,
};

fn masks(requested: u8, on: u8, failed: u8) -> Masks {
    Masks {
        requested,
        on,
        failed,
    }
}

/// A charged board in SAFE; the mission four are not requested.
fn board() -> State {
    let mut state = State::fresh();
    (state.mode, state.tension) = (Mode::Safe, 8_000);
    state
}

/// A board with this module's power and request.
fn with(number: usize, power: Power, requested: bool) -> State {
    let mut state = board();
    state.modules[number].power = power;
    state.modules[number].requested = requested;
    state.gather_masks();
    state
}

/// Takes a frame that is reported on; the masks that the report and the state have.
fn masks_after(state: &mut State, frame: &[u8]) -> Masks {
    let report = step::step(state, frame, report::BYTES).expect("a report");
    let told = masks(report.requested, report.on, report.failed);
    assert_eq!(state.masks, told);
    assert!(state.in_range());
    told
}

#[test]
fn the_fresh_masks() {
    assert_eq!(State::fresh().masks, masks(0x27, 0, 0));
}

#[test]
fn an_order_moves_one_bit_of_the_requested_mask_alone() {
    for module in 0..8 {
        for (serial, wanted) in [(1, 1), (2, 0), (3, 1)] {
            let mut state = board();
            let order = [0x04, 1, 0, serial, module, wanted];
            let told = masks_after(&mut state, &order);
            let bit = 1 << module;
            let requested = if wanted == 1 { 0x27 | bit } else { 0x27 & !bit };
            assert_eq!(told, masks(requested, 0, 0), "{order:?}");
        }
    }
}

#[test]
fn a_frame_that_is_late_or_too_early_moves_none() {
    let mut state = State::fresh();
    let fresh = state.masks;
    // Too early, a repeat, a stale one.
    for frame in [
        [0x04, 1, 0, 1, 4, 1],
        [0x04, 1, 0, 1, 0, 0],
        [0x04, 1, 0xFF, 0, 0, 0],
    ] {
        assert_eq!(masks_after(&mut state, &frame), fresh, "{frame:?}");
    }
}

#[test]
fn news_and_greetings_move_none() {
    let mut state = with(3, Power::Failed(7), true);
    let before = state.masks;
    let mut greeting = [0; 22];
    greeting[..8].copy_from_slice(&[0x07, 1, 0, 2, 1, 2, b'H', b'I']);
    for frame in [
        &[0x02, 0x1F, 0x40][..],
        &[0x03, 1],
        &[0x05, 1, 0, 1, 0x1C, 0xE8, 0x1B, 0x58],
        &greeting,
    ] {
        assert_eq!(masks_after(&mut state, frame), before, "{frame:02X?}");
    }
}

#[test]
fn a_tick_switches_bits_of_the_on_and_failed_masks() {
    let second = |power, requested, shorts| {
        let mut state = with(6, power, requested);
        let Masks { on, failed, .. } = masks_after(&mut state, &[0x01, shorts]);
        (on & 0x40, failed & 0x40)
    };
    let (off, on, failed) = ((0, 0), (0x40, 0), (0, 0x40));
    // Started, and failed as it starts; then the same of one that has failed.
    assert_eq!(second(Power::Off(1), true, 0), on);
    assert_eq!(second(Power::Off(1), true, 0x40), failed);
    assert_eq!(second(Power::Failed(0), true, 0), on);
    assert_eq!(second(Power::Failed(0), true, 0x40), failed);
    assert_eq!(second(Power::Failed(1), true, 0), failed);
    // Shorted while on, and failed by that; not wanted any more.
    assert_eq!(second(ON, true, 0x40), off);
    let last_try = Power::On {
        tries: 1,
        seconds: 9,
    };
    assert_eq!(second(last_try, true, 0x40), failed);
    assert_eq!(second(ON, false, 0), off);
    assert_eq!(second(ON, true, 0), on);
}

#[test]
fn a_crossing_downward_and_ends_move_the_requested_mask() {
    // Upward, with nothing requested: none is, and none is on.
    let mut state = State::fresh();
    for module in &mut state.modules {
        module.requested = false;
    }
    state.gather_masks();
    (state.mode, state.tension, state.control) = (Mode::Recovery, 8_000, 29);
    assert_eq!(masks_after(&mut state, &[0x01, 0]), masks(0, 0, 0));
    assert_eq!(state.mode, Mode::Safe);
    // Downward, the mission four were requested and on.
    let mut state = board();
    for module in &mut state.modules {
        (module.power, module.requested) = (ON, true);
    }
    state.gather_masks();
    let mut falling = state.clone();
    (falling.tension, falling.control) = (6_000, 29);
    assert_eq!(masks_after(&mut falling, &[0x01, 0]), masks(0x27, 0x27, 0));
    // The ends of ADCS and SBAND2 run out.
    state.ends = [1, 2, 0, 1];
    assert_eq!(masks_after(&mut state, &[0x01, 0]), masks(0x77, 0x77, 0));
    assert_eq!(masks_after(&mut state, &[0x01, 0]), masks(0x67, 0x67, 0));
}

/// What all calls that take an image answer to it, with a tick and room enough.
fn answers(image: &[u8]) -> [u8; 6] {
    let mut room = [0; 40];
    [
        calls::step(&mut image.to_vec(), &[0x01, 0], &mut room),
        calls::pass(&mut image.to_vec(), &[0x01, 0], &mut room).0,
        calls::modules_on(image).0,
        calls::beacon_basic(image, &mut room).0,
        calls::beacon_complete(image, &mut room).0,
        calls::beacon_extended(image, &mut room).0,
    ]
}

/// No message is kept.
const TAKEN: [u8; 6] = [0, 0, 0, 0, 0, 21];

#[test]
fn every_bit_of_a_mask_that_is_turned_is_refused_by_every_call() {
    for state in [State::fresh(), board(), with(7, Power::Failed(3), true)] {
        let good = image::save(&state);
        assert_eq!(answers(&good), TAKEN);
        for place in MASKS {
            for bit in 0..8 {
                let mut bytes = good;
                bytes[place] ^= 1 << bit;
                assert_eq!(answers(&bytes), [1; 6], "byte {place}, bit {bit}");
                assert_eq!(calls::modules_on(&bytes), (1, 0));
            }
        }
    }
}

/// Every power, requested or not.
fn all_ways() -> Vec<(Power, bool)> {
    let powers = [ON, Power::Off(3), Power::Failed(9)];
    powers.map(|power| [(power, false), (power, true)]).concat()
}

#[test]
fn a_module_that_moves_under_its_masks_is_refused_and_with_them_taken() {
    for number in 0..8 {
        for from in all_ways() {
            for to in all_ways() {
                let moved = with(number, to.0, to.1);
                assert_eq!(answers(&image::save(&moved)), TAKEN, "{to:?}");
                let alone = State {
                    masks: with(number, from.0, from.1).masks,
                    ..moved
                };
                let wanted = if from == to { TAKEN } else { [1; 6] };
                assert_eq!(answers(&image::save(&alone)), wanted, "{from:?} {to:?}");
            }
        }
    }
}

/// Tries and seconds stand in no mask.
#[test]
fn tries_and_seconds_may_be_any_under_the_same_masks() {
    let mut state = with(4, ON, true);
    for seconds in 0..60 {
        state.modules[4].power = Power::On { tries: 2, seconds };
        assert_eq!(answers(&image::save(&state)), TAKEN);
    }
}

#[test]
fn masks_that_disagree_go_before_all_else() {
    let mut bytes = image::save(&board());
    bytes[at::ON] ^= 1;
    let before = bytes;
    // No room, no input, and what is 4, 5, 6 and 7.
    for (frame, room) in [
        (&[0x01, 0][..], 10),
        (&[], 11),
        (&[0x08], 11),
        (&[0x01], 11),
        (&[0x02, 0, 0], 11),
        (&[0x04, 2, 0, 1, 3, 1], 11),
    ] {
        let mut replies = [7; 11];
        let answer = calls::step(&mut bytes, frame, &mut replies[..room]);
        assert_eq!(
            (answer, bytes, replies),
            (1, before, [7; 11]),
            "{frame:02X?}"
        );
        let passed = calls::pass(&mut bytes, frame, &mut replies[..room]);
        assert_eq!((passed, bytes, replies), ((1, 0), before, [7; 11]));
    }
    // No room, and no message.
    let mut text = [7; 9];
    assert_eq!(calls::beacon_basic(&bytes, &mut text), (1, 0));
    assert_eq!(calls::beacon_extended(&bytes, &mut text), (1, 0));
    assert_eq!(text, [7; 9]);
}

#[test]
fn the_masks_stand_before_the_modules() {
    let mut state = with(6, Power::Failed(0), true);
    state.modules[1].power = ON;
    state.gather_masks();
    let saved = image::save(&state);
    assert_eq!(saved.len(), 71);
    assert_eq!(saved[48..57], [0, 0, 0, 0, 0x67, 0x02, 0x40, 0xF5, 0x80]);
    assert_eq!(image::load(&saved), Some(state));
}

#[test]
fn as_many_are_on_as_there_are_ones_in_the_on_mask() {
    for on in 0..=u8::MAX {
        let mut state = board();
        for (number, module) in state.modules.iter_mut().enumerate() {
            let is_on = on >> number & 1 == 1;
            module.power = if is_on { ON } else { Power::Failed(1) };
            module.requested = !is_on;
        }
        state.gather_masks();
        let wanted = (0..8).filter(|number| on >> number & 1 == 1).count();
        assert_eq!(
            calls::modules_on(&image::save(&state)),
            (0, wanted),
            "{on:02X}"
        );
    }
}

#[test]
fn an_image_that_is_none_has_no_module_on() {
    let all_on = [0xFF; image::BYTES];
    let good = image::save(&with(4, ON, true));
    let mut older = good;
    older[at::VERSION] = 5;
    for bytes in [&[][..], &good[..image::BYTES - 1], &older, &all_on] {
        assert_eq!(calls::modules_on(bytes), (1, 0));
    }
    assert_eq!(calls::modules_on(&good), (0, 1));
}
