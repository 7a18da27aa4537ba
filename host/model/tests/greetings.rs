//! Greetings: both sides of every number, what replaces or clears the message, and
//! the beacons that it goes out with.

use model::frame::Body;
use model::message::{self, Message};
use model::state::Mode;
use model::table::{FROM_GROUND, FROM_PAYLOAD, GREETING, ORDER};
use model::{calls, frame, image, morse, report, step, step_log, State};

const DONE: u8 = 0;

fn answer(state: &mut State, frame: &[u8]) -> u8 {
    match step::step(state, frame, report::BYTES) {
        Ok(report) => report.answer,
        Err(refusal) => refusal,
    }
}

/// A second: the beacon that it makes due.
fn due(state: &mut State) -> u8 {
    let report = step::step(state, &[0x01, 0], report::BYTES);
    report.expect("a tick has a report").beacon
}

/// A message with this text.
fn message(repeats: u8, text: &[u8]) -> Message {
    let mut bytes = [0; message::BYTES];
    bytes[..text.len()].copy_from_slice(text);
    Message {
        repeats,
        length: text.len() as u8,
        bytes,
    }
}

/// A greeting with any bytes where the message is.
fn raw(origin: u8, serial: u16, message: Message) -> Vec<u8> {
    let [high, low] = serial.to_be_bytes();
    let Message {
        repeats,
        length,
        bytes,
    } = message;
    let mut frame = vec![GREETING, origin, high, low, repeats, length];
    frame.extend(bytes);
    frame
}

/// The ground's first greeting.
fn greeting(repeats: u8, text: &[u8]) -> Vec<u8> {
    raw(FROM_GROUND, 1, message(repeats, text))
}

/// A charged board in a mode, about to have a beacon in SAFE, with a message.
fn board(mode: Mode, message: Message) -> State {
    let mut state = State::fresh();
    (state.mode, state.message) = (mode, message);
    state.tension = if mode == Mode::Safe { 8_000 } else { 7_200 };
    if !mode.deploying() {
        state.beacon = 59;
    }
    state
}

const MODES: [Mode; 4] = [
    Mode::Waiting(0),
    Mode::Settling(900),
    Mode::Recovery,
    Mode::Safe,
];

#[test]
fn lengths_on_either_side() {
    let text = b"HELLO FROM EARTH";
    for length in 0..=u8::MAX {
        // What is past the length is filler, and must be 0.
        let mut sent = Message {
            length,
            ..message(1, text)
        };
        for byte in sent.bytes.iter_mut().skip(length.into()) {
            *byte = 0;
        }
        let wanted = match length {
            // A space last.
            6 | 11 => 6,
            0..=16 => DONE,
            _ => 6,
        };
        let mut state = State::fresh();
        let frame = raw(FROM_GROUND, 1, sent);
        assert_eq!(answer(&mut state, &frame), wanted, "{length}");
        let kept = wanted == DONE && length > 0;
        let message = if kept { sent } else { Message::NONE };
        assert_eq!(state.message, message, "{length}");
        assert_eq!(state.last.ground, (wanted == DONE).into());
        assert!(state.in_range());
    }
}

#[test]
fn repeats_are_any_and_0_clears() {
    for repeats in 0..=u8::MAX {
        let mut state = board(Mode::Safe, message(7, b"OLD"));
        assert_eq!(answer(&mut state, &greeting(repeats, b"NEW")), DONE);
        let kept = match repeats {
            0 => Message::NONE,
            _ => message(repeats, b"NEW"),
        };
        assert_eq!(state.message, kept, "{repeats}");
    }
}

#[test]
fn length_0_clears_whatever_the_repeats() {
    for repeats in [0, 1, 255] {
        let mut state = board(Mode::Safe, message(7, b"OLD"));
        assert_eq!(answer(&mut state, &greeting(repeats, b"")), DONE);
        assert_eq!(state.message, Message::NONE, "{repeats}");
    }
}

#[test]
fn every_byte_in_every_place() {
    for length in 0..=message::BYTES {
        let text = &b"GREETINGS.0,1?2/"[..length];
        for place in 0..message::BYTES {
            for byte in 0..=u8::MAX {
                let mut sent = message(3, text);
                sent.bytes[place] = byte;
                let keyed = morse::key(&sent.bytes[..length]);
                let fine = if place < length {
                    keyed.is_ok()
                } else {
                    byte == 0
                };
                let wanted = if fine { DONE } else { 6 };
                // Repeats of 0 excuse nothing.
                for repeats in [0, 3] {
                    let frame = raw(FROM_GROUND, 1, Message { repeats, ..sent });
                    let given = answer(&mut State::fresh(), &frame);
                    assert_eq!(given, wanted, "{length} {place} {byte:02X}");
                }
                // The state has the same limits.
                let mut state = board(Mode::Safe, sent);
                let given = answer(&mut state, &[0x03, 0]);
                assert_eq!(given, if fine { DONE } else { 1 });
                let mut saved = image::save(&board(Mode::Safe, message(3, text)));
                saved[image::at::TEXT + place] = byte;
                assert_eq!(image::load(&saved).is_some(), fine);
            }
        }
    }
}

#[test]
fn texts_that_keying_takes() {
    for (text, wanted) in [
        (&b""[..], DONE),
        (b"E", DONE),
        (b"A B", DONE),
        (b"A.,?/ 0 9 Z", DONE),
        (b" ", 6),
        (b" A", 6),
        (b"A ", 6),
        (b"A  B", 6),
        (b"a", 6),
        (b"A-B", 6),
        (b"A;B", 6),
        (b"A\0B", 6),
    ] {
        for repeats in [0, 1, 255] {
            let given = answer(&mut State::fresh(), &greeting(repeats, text));
            assert_eq!(given, wanted, "{text:?}");
        }
    }
}

#[test]
fn origins_and_6_before_7() {
    for (origin, good) in [(0, 6), (FROM_GROUND, DONE), (FROM_PAYLOAD, 7), (3, 6)] {
        for (message, wanted) in [
            (message(1, b"HI"), good),
            // What clears is a greeting too.
            (message(0, b"HI"), good),
            (Message::NONE, good),
            (message(1, b"hi"), 6),
            (message(1, b"HI\0"), 6),
            (
                Message {
                    length: 17,
                    ..message(1, b"SIXTEEN BYTES 16")
                },
                6,
            ),
        ] {
            let mut state = State::fresh();
            let frame = raw(origin, 1, message);
            assert_eq!(answer(&mut state, &frame), wanted, "{origin} {message:?}");
            // 7 and 6 go before 8.
            let frame = raw(origin, 0, message);
            let wanted = if wanted == DONE { 8 } else { wanted };
            assert_eq!(answer(&mut State::fresh(), &frame), wanted);
        }
    }
}

#[test]
fn other_lengths_are_refused() {
    for length in 1..=23 {
        let mut frame = greeting(1, b"HI");
        frame.resize(length, 0);
        let wanted = if length == 22 { DONE } else { 5 };
        assert_eq!(answer(&mut State::fresh(), &frame), wanted, "{length}");
    }
}

#[test]
fn a_body_is_read_as_the_page_has_it() {
    let frame = frame::read(&raw(1, 0x0102, message(9, b"HI"))).expect("it is read");
    assert_eq!(frame.body, Body::Greeting(message(9, b"HI")));
    let sender = frame.sender.expect("it has a sender");
    assert_eq!((sender.origin, sender.serial), (1, 258));
}

#[test]
fn serials_are_those_of_orders_in_every_mode() {
    for mode in MODES {
        for (serial, wanted) in [
            (5, 8),
            (6, DONE),
            (5 + 32_767, DONE),
            (5 + 32_768, 9),
            (4, 9),
        ] {
            let old = message(7, b"OLD");
            let mut state = board(mode, old);
            // The number that this takes is the one that a greeting repeats.
            assert_eq!(answer(&mut state, &[ORDER, FROM_GROUND, 0, 5, 1, 1]), DONE);
            let mut after = state.clone();
            let frame = raw(FROM_GROUND, serial, message(2, b"NEW"));
            assert_eq!(answer(&mut state, &frame), wanted, "{mode:?} {serial}");
            if wanted == DONE {
                after.last.ground = serial;
                after.message = message(2, b"NEW");
            }
            assert_eq!(state, after, "{mode:?} {serial}");
        }
    }
}

#[test]
fn a_payload_s_serial_is_no_greeting_s() {
    let mut state = State::fresh();
    state.last.payload = 40_000;
    assert_eq!(answer(&mut state, &greeting(1, b"HI")), DONE);
    assert_eq!((state.last.ground, state.last.payload), (1, 40_000));
}

#[test]
fn the_first_so_many_beacons_in_safe_are_extended() {
    for repeats in [0, 1, 2, 255] {
        let mut state = board(Mode::Safe, message(repeats, b"HI"));
        for beacon in 1..=257_u16 {
            let extended = beacon <= u16::from(repeats);
            assert_eq!(due(&mut state), if extended { 3 } else { 2 });
            assert_eq!(state.beacon, 0);
            for _ in 0..59 {
                assert_eq!(due(&mut state), 0);
            }
            let left = u16::from(repeats).saturating_sub(beacon) as u8;
            // The message stays when it is sent no more.
            assert_eq!(state.message, message(left, b"HI"));
        }
    }
}

#[test]
fn a_beacon_without_a_message_takes_no_repeat() {
    let repeats = 5;
    let nothing = Message {
        repeats,
        ..Message::NONE
    };
    let mut state = board(Mode::Safe, nothing);
    assert_eq!(due(&mut state), 2);
    assert_eq!(state.message, nothing);
}

#[test]
fn every_60_in_safe_and_300_in_recovery() {
    for beacon in 0..300 {
        let mut state = board(Mode::Safe, message(1, b"HI"));
        state.beacon = beacon;
        let wanted = if beacon % 60 == 59 { 3 } else { 0 };
        assert_eq!(due(&mut state), wanted, "{beacon}");
        assert_eq!(state.message.repeats, u8::from(wanted == 0));
        let mut state = board(Mode::Recovery, message(1, b"HI"));
        state.beacon = beacon;
        assert_eq!(due(&mut state), u8::from(beacon == 299), "{beacon}");
        assert_eq!(state.message, message(1, b"HI"));
    }
}

#[test]
fn a_crossing_in_the_same_tick_decides_and_keeps_the_message() {
    for (mode, tension, beacon, wanted) in [
        (Mode::Safe, 7_000, 299, 3),
        (Mode::Safe, 6_999, 299, 1),
        (Mode::Safe, 6_999, 59, 0),
        (Mode::Recovery, 7_400, 299, 1),
        (Mode::Recovery, 7_401, 299, 3),
        (Mode::Recovery, 7_401, 59, 3),
    ] {
        let mut state = board(mode, message(4, b"HI"));
        (state.control, state.tension, state.beacon) = (29, tension, beacon);
        assert_eq!(due(&mut state), wanted, "{mode:?} {tension} {beacon}");
        let left = if wanted == 3 { 3 } else { 4 };
        assert_eq!(state.message, message(left, b"HI"));
    }
}

#[test]
fn a_second_of_deploy_wait_sends_nothing() {
    for mode in [Mode::Waiting(59), Mode::Settling(2), Mode::Settling(1)] {
        let mut state = board(mode, message(4, b"HI"));
        assert_eq!(due(&mut state), 0);
        assert_eq!(state.message, message(4, b"HI"));
    }
}

#[test]
fn other_frames_leave_the_message() {
    for other in [
        &[0x02, 0x1F, 0x40][..],
        &[0x03, 1],
        &[0x04, 1, 0, 1, 4, 1],
        &[0x04, 2, 0, 1, 4, 1],
        &[0x05, 1, 0, 1, 0x1D, 0x4C, 0x1B, 0x58],
        &[0x06, 1, 0, 1, 4, 0, 20],
    ] {
        let mut state = board(Mode::Safe, message(4, b"HI"));
        assert_eq!(answer(&mut state, other), DONE);
        assert_eq!(state.message, message(4, b"HI"), "{other:02X?}");
    }
}

/// The extended text in a room: answer, count, and the room after it.
fn extended(bytes: &[u8], room: usize) -> (u8, usize, Vec<u8>) {
    let mut text = vec![7; room];
    let (answer, count) = calls::beacon_extended(bytes, &mut text);
    (answer, count, text)
}

#[test]
fn the_extended_text_in_rooms_on_either_side() {
    for text in [&b"E"[..], b"HI, SCHOOL", b"HELLO FROM EARTH"] {
        for (mode, letter) in MODES.into_iter().zip("DDRS".chars()) {
            for repeats in [0, 1, 255] {
                let state = board(mode, message(repeats, text));
                let saved = image::save(&state);
                let tension = state.tension;
                let wanted = [format!("EMS {letter} {tension} 00 00 ").as_bytes(), text].concat();
                let length = 17 + text.len();
                assert_eq!(wanted.len(), length);
                let short = extended(&saved, length - 1);
                assert_eq!(short, (14, 0, vec![7; length - 1]));
                assert_eq!(extended(&saved, length), (0, length, wanted.clone()));
                let past = [&wanted[..], &[7]].concat();
                assert_eq!(extended(&saved, length + 1), (0, length, past));
            }
        }
    }
}

#[test]
fn no_message_is_21_after_1_and_before_14() {
    for repeats in [0, 5] {
        let mut saved = image::save(&State::fresh());
        saved[image::at::REPEATS] = repeats;
        for room in [0, 16, 17, 33, 40] {
            assert_eq!(extended(&saved, room), (21, 0, vec![7; room]));
        }
    }
    let mut saved = image::save(&board(Mode::Safe, message(1, b"HI")));
    saved[image::at::ANTENNAS] = 2;
    for room in [0, 40] {
        assert_eq!(extended(&saved, room), (1, 0, vec![7; room]));
    }
    let mut saved = image::save(&State::fresh());
    saved[image::at::ANTENNAS] = 2;
    assert_eq!(extended(&saved, 40), (1, 0, vec![7; 40]));
}

#[test]
fn an_extended_text_can_be_keyed() {
    let saved = image::save(&board(Mode::Safe, message(0, b"HELLO FROM EARTH")));
    let (_, count, text) = extended(&saved, 33);
    assert_eq!(count, 33);
    assert!(morse::key(&text).is_ok());
}

#[test]
fn the_other_texts_have_no_message() {
    let saved = image::save(&board(Mode::Safe, message(1, b"HI")));
    let mut text = [7; 33];
    assert_eq!(calls::beacon_basic(&saved, &mut text), (0, 10));
    assert_eq!(calls::beacon_complete(&saved, &mut text), (0, 16));
    assert_eq!(&text[..17], b"EMS S 8000 00 00\x07");
}

#[test]
fn an_image_has_the_message_at_18() {
    let saved = image::save(&board(Mode::Safe, message(200, b"HI")));
    assert_eq!(saved[18..24], [200, 2, b'H', b'I', 0, 0]);
    assert_eq!(saved[24..36], [0; 12]);
    // Repeats have no limit, also where no message is kept.
    let fresh = image::save(&State::fresh());
    for repeats in 0..=u8::MAX {
        let mut bytes = fresh;
        bytes[image::at::REPEATS] = repeats;
        assert!(image::load(&bytes).is_some_and(|state| state.message.repeats == repeats));
    }
    for length in 1..=u8::MAX {
        let mut bytes = fresh;
        bytes[image::at::LENGTH] = length;
        assert_eq!(image::load(&bytes), None, "{length}");
    }
}

#[test]
fn a_stream_is_cut_after_22_bytes() {
    // A greeting, a tick, half a greeting.
    let mut input = greeting(1, b"HELLO FROM EARTH");
    input.extend([1, 0]);
    input.extend(&greeting(1, b"HI")[..21]);
    let log = "\
n kind origin serial answer mode requested on failed beacon
1 07 1 1 0 0 27 00 00 0
2 01 0 0 0 0 27 00 00 0
3 refused 5
";
    assert_eq!(step_log(&input), log);
}
