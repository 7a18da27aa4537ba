//! The differential tests' own test: faults planted in one side are found, and
//! come out short. `harness_masks.rs` has those of the masks, `harness_crossings.rs` those
//! of crossings and of two craft, `harness_books.rs` those of the books.

mod common;
mod kept;
mod keyers;
mod signs;
mod told;
mod wrong;

use common::{named, run};
use differential::frames::{Maker, Stream};
use differential::images::set_module;
use differential::rng::Rng;
use differential::shrink::tell_flight;
use differential::sides::{Calls, MODEL};
use model::image::{self, at};
use model::state::{Mode, CONTROL_TICKS, END_SECONDS, FAILED_SECONDS};
use model::{report, table, State};
use told::{frames, told};

/// One of the page's "errors that look right": reply 10 leaves the serial.
fn keeps_the_serial(image: &mut [u8], frame: &[u8], room: &mut [u8]) -> u8 {
    let before = image.to_vec();
    let answer = model::calls::step(image, frame, room);
    if answer == 10 {
        image.copy_from_slice(&before);
    }
    answer
}

#[test]
fn a_wrong_next_state_is_found_and_one_frame_shows_it() {
    let faulty = Calls {
        step: keeps_the_serial,
        ..MODEL
    };
    let told = told("every serial", faulty);
    assert_eq!(frames(&told), 1, "{told}");
}

/// Clears the room past the report.
fn clears_the_room(image: &mut [u8], frame: &[u8], room: &mut [u8]) -> u8 {
    let answer = model::calls::step(image, frame, room);
    if let Some(past) = room.get_mut(report::BYTES..) {
        past.fill(0);
    }
    answer
}

#[test]
fn a_byte_written_past_the_report_is_found() {
    let faulty = Calls {
        step: clears_the_room,
        ..MODEL
    };
    let told = told("every room length", faulty);
    assert_eq!(frames(&told), 1, "{told}");
}

/// Takes the fall into RECOVERY for one at equality too.
fn judges_at_equality(image: &mut [u8], frame: &[u8], room: &mut [u8]) -> u8 {
    let at_descend = |state: State| {
        let judging = state.mode == Mode::Safe && state.control + 1 == CONTROL_TICKS;
        judging && state.tension == state.descend
    };
    let crosses = frame == [table::TICK, 0] && image::load(image).is_some_and(at_descend);
    let answer = model::calls::step(image, frame, room);
    if crosses && answer == 0 {
        let mode = image::code::RECOVERY.to_le_bytes();
        image[at::MODE..at::CONTROL].copy_from_slice(&mode[..3]);
    }
    answer
}

#[test]
fn a_fault_at_one_equality_is_found() {
    let faulty = Calls {
        step: judges_at_equality,
        ..MODEL
    };
    let told = told("ends that run out", faulty);
    assert_eq!(frames(&told), 1, "{told}");
}

/// Stores a reading one millivolt off once the antennas are out.
fn misreads_when_deployed(image: &mut [u8], frame: &[u8], room: &mut [u8]) -> u8 {
    let answer = model::calls::step(image, frame, room);
    let reading = frame.first() == Some(&table::BATTERY);
    if answer == 0 && reading && image[at::ANTENNAS] == 1 {
        image[at::TENSION] ^= 1;
    }
    answer
}

#[test]
fn a_long_flight_from_the_fresh_start_comes_out_as_two_frames() {
    let faulty = Calls {
        step: misreads_when_deployed,
        ..MODEL
    };
    let mut rng = Rng::new(1);
    let mut stream = Stream::new(Maker::Structured);
    let shots = (0..2_000).map(|_| stream.next(&mut rng)).collect();
    let start = image::save(&State::fresh());
    let told = tell_flight(&[faulty, MODEL], &start, shots);
    assert_eq!(frames(&told), 2, "{told}");
}

/// Takes a module that is failed for a second too long.
fn takes_601_seconds(image: &mut [u8], frame: &[u8], room: &mut [u8]) -> u8 {
    let past = (image::code::FAILED + FAILED_SECONDS + 1).to_le_bytes();
    let last = at::MODULES..image.len() - 1;
    for begin in last.step_by(2) {
        if image[begin..begin + 2] == past {
            image[begin] -= 1;
        }
    }
    model::calls::step(image, frame, room)
}

#[test]
fn a_number_past_the_last_is_found() {
    let faulty = Calls {
        step: takes_601_seconds,
        ..MODEL
    };
    let told = told("every number of a mode, an end and a module", faulty);
    assert_eq!(frames(&told), 1, "{told}");
}

/// Takes an end that is a second too long.
fn takes_86401_seconds(image: &mut [u8], frame: &[u8], room: &mut [u8]) -> u8 {
    let past = (END_SECONDS + 1).to_le_bytes();
    if let Some(end) = image.get_mut(at::ENDS..at::ENDS + 4) {
        if *end == past {
            end[0] -= 1;
        }
    }
    model::calls::step(image, frame, room)
}

#[test]
fn an_end_past_the_longest_is_found() {
    let faulty = Calls {
        step: takes_86401_seconds,
        ..MODEL
    };
    let told = told("every number of a mode, an end and a module", faulty);
    assert_eq!(frames(&told), 1, "{told}");
}

/// Takes 1,441 minutes for 1,440.
fn takes_1441_minutes(image: &mut [u8], frame: &[u8], room: &mut [u8]) -> u8 {
    let mut frame = frame.to_vec();
    if let [table::TIMED, .., more, less] = &mut frame[..] {
        if [*more, *less] == 1_441_u16.to_be_bytes() {
            *less -= 1;
        }
    }
    model::calls::step(image, &frame, room)
}

#[test]
fn a_minute_too_many_is_found() {
    let faulty = Calls {
        step: takes_1441_minutes,
        ..MODEL
    };
    let told = told("timed orders about every limit", faulty);
    assert_eq!(frames(&told), 1, "{told}");
}

/// Lets ends fall in DEPLOY_WAIT too.
fn counts_while_deploying(image: &mut [u8], frame: &[u8], room: &mut [u8]) -> u8 {
    let deploying = image::load(image).is_some_and(|state| state.mode.deploying());
    let answer = model::calls::step(image, frame, room);
    if deploying && answer == 0 && frame[0] == table::TICK {
        let end = &mut image[at::ENDS];
        *end = end.saturating_sub(1);
    }
    answer
}

#[test]
fn an_end_that_falls_at_the_wrong_time_is_found() {
    let faulty = Calls {
        step: counts_while_deploying,
        ..MODEL
    };
    let told = told("ends that run out", faulty);
    assert_eq!(frames(&told), 1, "{told}");
}

/// Keeps the end at a plain "on".
fn keeps_the_end(image: &mut [u8], frame: &[u8], room: &mut [u8]) -> u8 {
    let before = image.to_vec();
    let answer = model::calls::step(image, frame, room);
    if answer == 0 && matches!(frame, [table::ORDER, .., 1]) {
        let ends = at::ENDS..at::REQUESTED;
        image[ends.clone()].copy_from_slice(&before[ends]);
    }
    answer
}

#[test]
fn an_end_that_an_order_should_have_dropped_is_found() {
    let faulty = Calls {
        step: keeps_the_end,
        ..MODEL
    };
    let told = told("ends that run out", faulty);
    assert_eq!(frames(&told), 1, "{told}");
}

#[test]
fn every_wrong_second_is_found_and_one_frame_shows_it() {
    for group in ["every power in every second", "modules that short"] {
        for (name, step) in wrong::seconds::SECONDS {
            let told = told(group, Calls { step, ..MODEL });
            assert_eq!(frames(&told), 1, "{group}: {name}\n{told}");
        }
    }
}

#[test]
fn a_board_that_never_counts_as_failed_is_found() {
    for wrong in [
        "gives five tries at a short",
        "gives five tries at a start",
        "gives a failed one five tries",
        "takes no try from one that is on",
        "never fails one that is on",
    ] {
        let step = named(&wrong::seconds::SECONDS, wrong);
        let told = told("a board that starts and shorts", Calls { step, ..MODEL });
        assert_eq!(frames(&told), 1, "{wrong}\n{told}");
    }
}

/// Takes a try, or a second, from MCS as it shorts in DEPLOY_WAIT.
fn shorts_while_deploying(image: &mut [u8], frame: &[u8], room: &mut [u8]) -> u8 {
    let deploying = image::load(image).is_some_and(|state| state.mode.deploying());
    let answer = model::calls::step(image, frame, room);
    let short = matches!(frame, [table::TICK, shorts] if shorts & 1 != 0);
    if deploying && answer == 0 && short {
        let number = &mut image[at::MODULES];
        *number = number.saturating_sub(1);
    }
    answer
}

#[test]
fn a_short_that_counts_at_the_wrong_time_is_found() {
    let faulty = Calls {
        step: shorts_while_deploying,
        ..MODEL
    };
    let told = told("every power in every second", faulty);
    assert_eq!(frames(&told), 1, "{told}");
}

/// Takes MCS for on where it is off with one try: on with five tries and a second would
/// be the same number.
fn takes_five_tries_and_a_second(image: &mut [u8], frame: &[u8], room: &mut [u8]) -> u8 {
    let past = (image::code::OFF + 1).to_le_bytes();
    if image.get(at::MODULES..at::MODULES + 2) == Some(&past) {
        set_module(image, 0, image::code::OFF);
    }
    model::calls::step(image, frame, room)
}

#[test]
fn a_number_past_those_that_are_on_is_found() {
    for group in [
        "every number of a mode, an end and a module",
        "every power in every second",
    ] {
        let faulty = Calls {
            step: takes_five_tries_and_a_second,
            ..MODEL
        };
        let told = told(group, faulty);
        assert_eq!(frames(&told), 1, "{told}");
    }
}

#[test]
fn every_greeting_taken_wrongly_is_found_and_one_frame_shows_it() {
    for (name, step) in wrong::greetings::TAKEN {
        let told = told("greetings about every limit", Calls { step, ..MODEL });
        assert_eq!(frames(&told), 1, "{name}\n{told}");
    }
}

#[test]
fn a_byte_of_a_greeting_that_is_misread_is_found_in_every_place() {
    for wrong in [
        "asks who sends it first",
        "looks at no filler",
        "takes 17 characters",
        "takes small letters",
        "takes spaces anywhere",
        "excuses one that clears",
    ] {
        let step = named(&wrong::greetings::TAKEN, wrong);
        let group = "every byte in every place of a greeting";
        let told = told(group, Calls { step, ..MODEL });
        assert_eq!(frames(&told), 1, "{wrong}\n{told}");
    }
}

#[test]
fn every_message_sent_wrongly_is_found_and_one_frame_shows_it() {
    for (name, step) in wrong::greetings::SENT {
        let told = told("messages that run out", Calls { step, ..MODEL });
        assert_eq!(frames(&told), 1, "{name}\n{told}");
    }
}

#[test]
fn a_message_that_never_ends_is_found() {
    for wrong in [
        "drops the message with its last repeat",
        "sends it once more",
        "never lets repeats fall",
    ] {
        let step = named(&wrong::greetings::SENT, wrong);
        let told = told("the most repeats", Calls { step, ..MODEL });
        assert_eq!(frames(&told), 1, "{wrong}\n{told}");
    }
}

#[test]
fn a_state_whose_message_is_not_looked_at_is_found() {
    for group in [
        "every message that is kept",
        "every value of every image byte",
        "damaged images",
    ] {
        let faulty = Calls {
            step: kept::step,
            ..MODEL
        };
        let told = told(group, faulty);
        assert_eq!(frames(&told), 1, "{group}\n{told}");
    }
}

#[test]
fn every_wrong_extended_beacon_is_found() {
    for (name, beacon_extended) in kept::BEACONS {
        let faulty = Calls {
            beacon_extended,
            ..MODEL
        };
        let told = told("extended beacons in every room", faulty);
        assert!(told.starts_with("input:   06 "), "{name}\n{told}");
    }
}

/// The pieces of a told pass are frames as well.
#[test]
fn every_wrong_pass_is_found_and_comes_out_short() {
    for (name, pass) in wrong::PASSES {
        let told = told("passes", Calls { pass, ..MODEL });
        assert!(frames(&told) <= 2, "{name}\n{told}");
    }
}

/// What a group says of a wrong pass.
fn told_of(group: &str, wrong: &str) -> String {
    let pass = named(&wrong::PASSES, wrong);
    told(group, Calls { pass, ..MODEL })
}

#[test]
fn a_pass_that_stops_too_late_is_found() {
    for name in [
        "counts the frame that is refused",
        "takes a tail for the end",
    ] {
        let told = told_of("passes stopped in every way", name);
        assert_eq!(frames(&told), 1, "{told}");
    }
}

#[test]
fn a_pass_that_misjudges_its_room_is_found() {
    for name in [
        "wants a byte more than a report has",
        "clears the room behind the last report",
        "wants room for no bytes",
    ] {
        let told = told_of("passes in every room", name);
        assert!(frames(&told) <= 1, "{told}");
    }
}

#[test]
fn a_pass_that_is_not_its_single_steps_is_found() {
    for name in ["stops at a stale order", "undoes a pass that is stopped"] {
        let told = told_of("passes in parts", name);
        assert!(told.contains("\nat once: ") && told.contains("\nin parts: "));
        assert!(frames(&told) <= 2, "{told}");
    }
}

/// Damages the last of several reports.
fn damages_the_last_of_several(image: &mut [u8], frames: &[u8], room: &mut [u8]) -> (u8, usize) {
    let (answer, reported) = model::calls::pass(image, frames, room);
    if reported > 1 {
        room[report::BYTES * reported - 1] ^= 4;
    }
    (answer, reported)
}

/// It is right for one frame at a time.
#[test]
fn a_pass_that_depends_on_where_it_is_cut_is_found() {
    let faulty = Calls {
        pass: damages_the_last_of_several,
        ..MODEL
    };
    let told = told("passes in parts", faulty);
    assert_eq!(frames(&told), 2, "{told}");
}

/// Reads units with a gap behind the last sign.
fn takes_a_last_gap(units: &[u8], text: &mut [u8]) -> (u8, usize) {
    let without = units.strip_suffix(&[0]).unwrap_or(units);
    model::calls::read(without, text)
}

#[test]
fn a_reader_that_takes_too_much_is_found() {
    let faulty = Calls {
        read: takes_a_last_gap,
        ..MODEL
    };
    let told = told("units damaged in one place", faulty);
    assert!(
        told.starts_with("input:   00 ") || told.starts_with("input:   01 00 "),
        "{told}"
    );
}

/// Takes five marks that no figure has for the figure that they begin like.
fn goes_by_the_first_marks(units: &[u8], text: &mut [u8]) -> (u8, usize) {
    let heard = model::calls::read(units, text);
    let marks: Vec<usize> = units.split(|unit| *unit == 0).map(<[u8]>::len).collect();
    let five = marks.len() == 5 && marks.iter().all(|mark| [1, 3].contains(mark));
    if heard.0 != 15 || !five {
        return heard;
    }
    let alike = marks.iter().take_while(|mark| **mark == marks[0]).count();
    text[0] = if marks[0] == 1 { b'0' } else { b'5' } + alike as u8;
    (0, 1)
}

/// Four dots with a dash in their midst, 11 units, are the shortest five marks that no
/// figure has.
#[test]
fn a_sign_that_no_byte_has_is_found() {
    let faulty = Calls {
        read: goes_by_the_first_marks,
        ..MODEL
    };
    let told = told("every sign of up to 7 marks", faulty);
    let units = told.lines().next().map(|line| line.matches(" 0").count());
    assert_eq!(units, Some(11), "{told}");
}

#[test]
fn a_keyer_with_a_wrong_sign_is_found() {
    for group in [
        "every text of up to 2 bytes",
        "every byte in every place of a text",
        "texts of up to 70 bytes",
    ] {
        for (name, key) in signs::KEYERS {
            let told = told(group, Calls { key, ..MODEL });
            // One byte shows it.
            assert!(told.starts_with("input:   "), "{group}: {name}\n{told}");
            assert_eq!(told.find(" (room "), Some(11), "{group}: {name}\n{told}");
        }
    }
}

/// The group of the bound on keying room.
const SET_ASIDE: &str = "texts in the room set aside for them";

#[test]
fn every_keyer_with_another_need_is_found() {
    for (name, key) in keyers::KEYERS {
        let told = told(SET_ASIDE, Calls { key, ..MODEL });
        assert!(told.contains("\nmodel:   "), "{name}\n{told}");
    }
}

/// The bound is looked at on the answers themselves.
#[test]
fn every_keyer_with_another_need_is_found_where_the_model_has_it_too() {
    for (name, key) in keyers::KEYERS {
        let wrong = Calls { key, ..MODEL };
        let told = run(SET_ASIDE, &[wrong, wrong]).expect_err(name);
        assert!(told.starts_with("input:   "), "{name}\n{told}");
    }
}

#[test]
fn a_reader_with_a_wrong_sign_is_found() {
    for group in [
        "every sign of up to 7 marks",
        "every byte in every place of a text",
        "units damaged in one place",
    ] {
        for (name, read) in signs::READERS {
            let told = told(group, Calls { read, ..MODEL });
            assert!(told.starts_with("input:   01 "), "{group}: {name}\n{told}");
        }
    }
}

#[test]
fn a_reader_of_a_sign_that_no_byte_has_is_found() {
    for (name, read) in signs::GUESSERS {
        let told = told("every sign of up to 7 marks", Calls { read, ..MODEL });
        // The sign alone shows it.
        let input = told.lines().next().unwrap_or_default();
        assert!(!input.contains(" 00 00 "), "{name}\n{told}");
    }
}

/// Whether a call of the tracker is told.
fn is_of_a_call(told: &str) -> bool {
    told.starts_with("before:  ") && told.lines().count() == 5
}

#[test]
fn every_wrong_tracker_is_found() {
    for (name, track) in wrong::all_trackers() {
        let told = told("the tracker about every limit", Calls { track, ..MODEL });
        assert!(is_of_a_call(&told), "{name}\n{told}");
    }
}

#[test]
fn a_tracker_that_moves_wrongly_is_found_about_an_end_and_on_a_walk() {
    for group in ["the tracker about both ends", "walks by the tracker"] {
        let wrong = wrong::trackers::JUDGED.into_iter();
        for (name, track) in wrong.chain(wrong::trackers::MOVED) {
            let told = told(group, Calls { track, ..MODEL });
            assert!(is_of_a_call(&told), "{group}: {name}\n{told}");
        }
    }
}

/// The one number that is wrong is left, and all others are at their least.
#[test]
fn a_number_past_a_limit_comes_out_alone() {
    for (wrong, wanted) in [
        (
            "takes 20,001 mV before the move",
            "before:  20001 mV, 0 mA\nafter:   0 mV, 0 mA\nmoved:   set point 0, step 1\n",
        ),
        (
            "takes 5,001 mA after the move",
            "before:  0 mV, 0 mA\nafter:   0 mV, 5001 mA\nmoved:   set point 0, step 1\n",
        ),
        (
            "takes a step of 501",
            "before:  0 mV, 0 mA\nafter:   0 mV, 0 mA\nmoved:   set point 0, step 501\n",
        ),
    ] {
        let track = named(&wrong::ranges::TAKEN, wrong);
        let told = told("the tracker about every limit", Calls { track, ..MODEL });
        assert!(told.starts_with(wanted), "{wrong}\n{told}");
    }
}
