//! The wrapper's `Craft`: only what the library takes becomes one.

use ems::{
    answer, calls, Craft, Mode, Module, Passed, Report, BEACON_EXTENDED_BYTES, IMAGE_BYTES,
    MESSAGE_BYTES, REPORT_BYTES,
};
use model::image::at;

#[test]
fn an_image_comes_back_as_the_same_craft() {
    let mut craft = Craft::fresh();
    let mut room = [0; REPORT_BYTES];
    assert_eq!(craft.step(&[0x02, 0x1D, 0x1A], &mut room), answer::DONE);
    assert_ne!(craft, Craft::fresh());
    assert_eq!(Craft::from_image(craft.image()), Some(craft));
}

#[test]
fn bytes_that_are_no_image_become_none() {
    let fresh = *Craft::fresh().image();
    assert_eq!(Craft::from_image(&[]), None);
    assert_eq!(Craft::from_image(&fresh[..IMAGE_BYTES - 1]), None);
    for version in [5, 7] {
        let mut other_version = fresh;
        other_version[at::VERSION] = version;
        assert_eq!(Craft::from_image(&other_version), None);
    }
    let mut counting_while_waiting = fresh;
    counting_while_waiting[at::CONTROL] = 1;
    assert_eq!(Craft::from_image(&counting_while_waiting), None);
}

#[test]
fn an_end_of_a_day_is_the_longest() {
    let mut image = *Craft::fresh().image();
    let end = at::ENDS..at::ENDS + 4;
    image[end.clone()].copy_from_slice(&86_400_u32.to_le_bytes());
    assert!(Craft::from_image(&image).is_some());
    image[end].copy_from_slice(&86_401_u32.to_le_bytes());
    assert_eq!(Craft::from_image(&image), None);
}

/// The fresh craft with this number for MCS, which its masks have failed and not requested.
fn with_mcs_failed(number: u16) -> Option<Craft> {
    let [low, high] = number.to_le_bytes();
    // The masks stand right before it.
    with(at::REQUESTED, &[0x26, 0x00, 0x01, low, high])
}

#[test]
fn a_module_failed_for_600_seconds_has_the_last_number() {
    assert!(with_mcs_failed(846).is_some());
    assert_eq!(with_mcs_failed(847), None);
}

#[test]
fn a_module_that_its_masks_have_otherwise_is_no_image() {
    // Off, on, failed and requested; failed is what they say.
    for number in [245, 240, 0x8000 + 846] {
        assert_eq!(with_mcs_failed(number), None, "{number}");
    }
}

#[test]
fn a_mask_with_a_bit_turned_is_no_image() {
    for mask in [at::REQUESTED, at::ON, at::FAILED] {
        for bit in 0..8 {
            let mut image = *Craft::fresh().image();
            image[mask] ^= 1 << bit;
            assert_eq!(Craft::from_image(&image), None, "byte {mask}, bit {bit}");
            let count = calls::modules_on(&image);
            assert_eq!(count, (answer::BAD_STATE, 0), "byte {mask}, bit {bit}");
        }
    }
}

/// A reading, and ticks up to the next judgement: the last report.
fn judged(craft: &mut Craft, millivolts: u16) -> Report {
    let [high, low] = millivolts.to_be_bytes();
    let mut report = craft.report_on(&[0x02, high, low]);
    for _ in 0..30 {
        report = craft.report_on(&[0x01, 0]);
    }
    report.expect("a report")
}

/// No crossing brings it back, up or down.
#[test]
fn a_radio_ordered_off_is_off_until_it_is_ordered_on() {
    let mut craft = Craft::fresh();
    craft.report_on(&[0x03, 1]).expect("a report");
    for _ in 0..901 {
        craft.report_on(&[0x01, 0]).expect("a report");
    }
    let order = |number, wanted| [0x04, 1, 0, number, Module::Comm2.number(), wanted];
    craft.report_on(&order(1, 0)).expect("a report");
    let quiet = !Module::MISSION & !Module::Comm2.bit();
    let (recovery, safe) = (Mode::Recovery.number(), Mode::Safe.number());
    for (millivolts, mode) in [(7_800, safe), (6_000, recovery), (7_800, safe)] {
        let report = judged(&mut craft, millivolts);
        let given = (report.mode, report.requested, report.on);
        assert_eq!(given, (mode, quiet, quiet));
    }
    craft.report_on(&order(2, 1)).expect("a report");
    let report = judged(&mut craft, 7_800);
    assert_eq!((report.mode, report.on), (safe, !Module::MISSION));
}

/// Into SAFE, with one more of the mission four on after each order, and all eight shorted.
#[test]
fn as_many_modules_are_on_as_the_reports_say() {
    let mut craft = Craft::fresh();
    let mut counts = vec![craft.modules_on()];
    let order = |number: u8, module: Module| vec![0x04, 1, 0, number, module.number(), 1];
    let mut frames = vec![vec![0x03, 1], vec![0x02, 0x1E, 0x78]];
    frames.extend(vec![vec![0x01, 0]; 931]);
    for (number, module) in (1..).zip(Module::in_mask(Module::MISSION)) {
        frames.extend([order(number, module), vec![0x01, 0]]);
    }
    frames.push(vec![0x01, 0xFF]);
    for frame in frames {
        let report = craft.report_on(&frame).expect("a report");
        let on = Module::in_mask(report.on).count();
        assert_eq!(craft.modules_on(), on);
        assert_eq!(calls::modules_on(craft.image()), (answer::DONE, on));
        counts.push(on);
    }
    counts.dedup();
    assert_eq!(counts, [0, 4, 5, 6, 7, 8, 0]);
}

/// A craft with an image's bytes from a place on put in the place of its own.
fn with(place: usize, bytes: &[u8]) -> Option<Craft> {
    let mut image = *Craft::fresh().image();
    image[place..place + bytes.len()].copy_from_slice(bytes);
    Craft::from_image(&image)
}

#[test]
fn a_message_of_16_bytes_is_the_longest() {
    let message = |length: u8, text: &[u8; MESSAGE_BYTES]| {
        let bytes = [&[255, length][..], text].concat();
        with(at::REPEATS, &bytes)
    };
    assert!(message(16, b"HELLO FROM EARTH").is_some());
    assert_eq!(message(17, b"HELLO FROM EARTH"), None);
    assert_eq!(message(16, b"HELLO FROM EARTh"), None);
    // The byte past its length is none of its own.
    assert_eq!(message(15, b"HELLO FROM EARTH"), None);
    assert!(message(15, b"HELLO FROM EART\0").is_some());
    assert!(message(0, &[0; MESSAGE_BYTES]).is_some());
}

/// A greeting of the ground, its first.
fn greeting(repeats: u8, message: &[u8]) -> Vec<u8> {
    let mut frame = vec![0x07, 1, 0, 1, repeats, message.len() as u8];
    frame.extend(message);
    frame.resize(6 + MESSAGE_BYTES, 0);
    frame
}

#[test]
fn an_extended_beacon_is_the_complete_one_a_space_and_the_message() {
    let mut craft = Craft::fresh();
    let mut text = [7; BEACON_EXTENDED_BYTES + 1];
    let none = craft.beacon_extended(&mut text);
    assert_eq!(none, (answer::NO_MESSAGE, 0));
    let longest = b"HELLO FROM EARTH";
    let report = craft.report_on(&greeting(1, longest)).expect("a report");
    assert_eq!(report.answer, answer::DONE);
    let short = craft.beacon_extended(&mut text[..BEACON_EXTENDED_BYTES - 1]);
    assert_eq!(short, (answer::NO_ROOM, 0));
    assert_eq!(text, [7; BEACON_EXTENDED_BYTES + 1]);
    let extended = craft.beacon_extended(&mut text);
    assert_eq!(extended, (answer::DONE, BEACON_EXTENDED_BYTES));
    assert_eq!(text, *b"EMS D 0000 00 00 HELLO FROM EARTH\x07");
}

#[test]
fn a_refused_frame_leaves_the_craft() {
    let mut craft = Craft::fresh();
    let mut room = [7; REPORT_BYTES];
    assert_eq!(craft.step(&[0x81], &mut room), answer::UNKNOWN_KIND);
    assert_eq!((craft, room), (Craft::fresh(), [7; REPORT_BYTES]));
}

#[test]
fn a_report_is_what_the_room_has() {
    let (mut one, mut other) = (Craft::fresh(), Craft::fresh());
    // An order that comes too early, the same again, an older one, a timed one that
    // comes too early, a greeting, one from the payload, an order for the payload
    // alone, half a frame.
    for frame in [
        &[0x04, 1, 0, 2, 4, 1][..],
        &[0x04, 1, 0, 2, 4, 1],
        &[0x04, 1, 0, 1, 4, 0],
        &[0x06, 1, 0, 3, 4, 0, 20],
        &[
            0x07, 1, 0, 4, 1, 2, b'H', b'I', 0, 0, 0, 0, 0, 0, 0, 0, 0, 0, 0, 0, 0, 0,
        ],
        &[
            0x07, 2, 0, 4, 1, 2, b'H', b'I', 0, 0, 0, 0, 0, 0, 0, 0, 0, 0, 0, 0, 0, 0,
        ],
        &[0x04, 2, 0, 1, 3, 1],
        &[0x04, 1],
    ] {
        let mut room = [0; REPORT_BYTES];
        let given = one.step(frame, &mut room);
        let report = other.report_on(frame);
        assert_eq!(report.is_ok(), answer::has_report(given), "{frame:02X?}");
        match report {
            Ok(report) => assert_eq!((report.bytes(), report.answer), (room, given)),
            Err(refusal) => assert_eq!(refusal, given),
        }
        assert_eq!(one, other);
    }
}

#[test]
fn bytes_that_are_no_report_become_none() {
    let mut craft = Craft::fresh();
    let report = craft.report_on(&[0x03, 1]).expect("a report");
    let bytes = report.bytes();
    assert_eq!(Report::read(&bytes), Some(report));
    assert_eq!(Report::read(&bytes[1..]), None);
    assert_eq!(Report::read(&[&bytes[..], &[0]].concat()), None);
    let mut order = bytes;
    order[0] = 0x04;
    assert_eq!(Report::read(&order), None);
}

/// Frames that are reported on: a reading, the antennas, an order that comes too
/// early, the same again, an older one, thresholds, a timed order, a greeting, a
/// second.
const REPORTED: [&[u8]; 9] = [
    &[0x02, 0x1E, 0x78],
    &[0x03, 1],
    &[0x04, 1, 0, 2, 4, 1],
    &[0x04, 1, 0, 2, 4, 1],
    &[0x04, 1, 0, 1, 4, 0],
    &[0x05, 1, 0, 3, 0x1D, 0x4C, 0x1B, 0x58],
    &[0x06, 2, 0, 1, 4, 0, 20],
    &[
        0x07, 1, 0, 4, 1, 2, b'H', b'I', 0, 0, 0, 0, 0, 0, 0, 0, 0, 0, 0, 0, 0, 0,
    ],
    &[0x01, 0],
];

/// What single calls make of frames in order: the reports.
fn one_by_one(craft: &mut Craft, frames: &[&[u8]]) -> Vec<Report> {
    let reports = frames.iter().map(|frame| craft.report_on(frame));
    reports.map(|report| report.expect("a report")).collect()
}

#[test]
fn a_pass_is_its_single_calls_in_order() {
    let bytes = REPORTED.concat();
    let (mut by_pass, mut by_step) = (Craft::fresh(), Craft::fresh());
    let passed = by_pass.reports_on(&bytes, Passed::room_for(&bytes));
    let reports = one_by_one(&mut by_step, &REPORTED);
    let answer = answer::DONE;
    assert_eq!(passed, Passed { reports, answer });
    assert_eq!(by_pass, by_step);
}

/// Its length has no limit but the room's.
#[test]
fn a_long_pass_is_its_single_calls_in_order() {
    let frames = REPORTED.repeat(1_000);
    let bytes = frames.concat();
    let (mut by_pass, mut by_step) = (Craft::fresh(), Craft::fresh());
    let passed = by_pass.reports_on(&bytes, Passed::room_for(&bytes));
    let reports = one_by_one(&mut by_step, &frames);
    let answer = answer::DONE;
    assert_eq!(passed, Passed { reports, answer });
    assert_eq!(by_pass, by_step);
}

/// The shortest frames, and what is left of one.
#[test]
fn room_for_a_pass_is_enough() {
    for length in 0..=20 {
        let bytes = [0x01, 0].repeat(10)[..length].to_vec();
        let passed = Craft::fresh().reports_on(&bytes, Passed::room_for(&bytes));
        let answer = match length % 2 {
            0 => answer::DONE,
            _ => answer::BAD_LENGTH,
        };
        assert_eq!((passed.reports.len(), passed.answer), (length / 2, answer));
    }
}

#[test]
fn a_pass_stops_before_what_is_refused() {
    for (refused, answer) in [
        (&[0x81][..], answer::UNKNOWN_KIND),
        (&[0x04, 1, 0], answer::BAD_LENGTH),
        (&[0x02, 0x13, 0x87, 0x01, 0], answer::BAD_FIELD),
        (&[0x04, 2, 0, 2, 3, 1, 0x01, 0], answer::NOT_PERMITTED),
    ] {
        let bytes = [&REPORTED.concat(), refused].concat();
        let (mut by_pass, mut by_step) = (Craft::fresh(), Craft::fresh());
        let passed = by_pass.reports_on(&bytes, Passed::room_for(&bytes));
        let reports = one_by_one(&mut by_step, &REPORTED);
        assert_eq!(passed, Passed { reports, answer });
        assert_eq!(by_pass, by_step);
    }
}

#[test]
fn a_pass_stops_where_the_room_ends() {
    // Nobody gets so far as to see that the kind is unknown.
    let bytes = [&REPORTED.concat()[..], &[0x81]].concat();
    for room in 0..=REPORT_BYTES * REPORTED.len() + REPORT_BYTES {
        let fit = (room / REPORT_BYTES).min(REPORTED.len());
        let (mut by_pass, mut by_step) = (Craft::fresh(), Craft::fresh());
        let passed = by_pass.reports_on(&bytes, room);
        let reports = one_by_one(&mut by_step, &REPORTED[..fit]);
        let whole = room / REPORT_BYTES > REPORTED.len();
        let answer = match whole {
            true => answer::UNKNOWN_KIND,
            false => answer::SHORT_ROOM,
        };
        assert_eq!(passed, Passed { reports, answer }, "room {room}");
        assert_eq!(by_pass, by_step, "room {room}");
    }
}

#[test]
fn a_pass_leaves_the_room_past_its_reports() {
    let mut room = [7; 3 * REPORT_BYTES + 5];
    let mut craft = Craft::fresh();
    let two = craft.pass(&REPORTED[..2].concat(), &mut room);
    assert_eq!(two, (answer::DONE, 2));
    let (reports, rest) = room.split_at(2 * REPORT_BYTES);
    assert_eq!(rest, [7; REPORT_BYTES + 5]);
    let mut board = Craft::fresh();
    for (bytes, frame) in reports.chunks(REPORT_BYTES).zip(REPORTED) {
        assert_eq!(Report::read(bytes), board.report_on(frame).ok());
    }
}

#[test]
fn no_bytes_are_no_frames() {
    let mut craft = Craft::fresh();
    assert_eq!(craft.pass(&[], &mut []), (answer::DONE, 0));
    let passed = craft.reports_on(&[], 0);
    assert_eq!((passed.answer, passed.reports.len()), (answer::DONE, 0));
    assert_eq!(craft, Craft::fresh());
}
