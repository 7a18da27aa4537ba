//! How far greetings get: flights by the table meet them with every answer in every
//! mode, and messages with all that becomes of them. Starts in any state have messages
//! of every length in every mode. Messages with a fault have each fault in every place,
//! in frames and in images. Those with few repeats are used up, and met by crossings as
//! a beacon falls due. The groups get every answer for every reason, in every room.

mod common;

use differential::frames::{Maker, Stream};
use differential::messages::{self, Fault};
use differential::rng::Rng;
use differential::sides::{Calls, MODEL};
use differential::{images, sending};
use model::message::{self, Message};
use model::report::Report;
use model::table::{GREETING, KINDS, TICK};
use model::{image, morse, step, State};
use std::cell::RefCell;
use std::collections::BTreeSet;

/// What becomes of a message.
#[derive(PartialEq, Eq, PartialOrd, Ord, Debug)]
enum Told {
    Brought,
    Replaced,
    ClearedByRepeats,
    ClearedByLength,
    /// Sent, with so many repeats left, of 2 or fewer.
    Sent(u8),
    /// Left out of a beacon because none are left.
    UsedUp,
    /// Left out of one in RECOVERY.
    Basic,
    /// Kept over a change of mode, with repeats left.
    Kept {
        to: u8,
    },
}

/// What a frame that is done has made of a message.
fn told(frame: &[u8], due: u8, before: &State, after: &State) -> Option<Told> {
    let (had, has) = (before.message, after.message);
    let none = |message: Message| message.text().is_none();
    match frame {
        [GREETING, _, _, _, _, 0, ..] if !none(had) => Some(Told::ClearedByLength),
        [GREETING, _, _, _, 0, ..] if !none(had) => Some(Told::ClearedByRepeats),
        [GREETING, ..] if none(had) && !none(has) => Some(Told::Brought),
        [GREETING, ..] if had.bytes != has.bytes => Some(Told::Replaced),
        [TICK, _] if none(had) => None,
        [TICK, _] if due == 3 => (has.repeats <= 2).then_some(Told::Sent(has.repeats)),
        [TICK, _] if due == 2 => Some(Told::UsedUp),
        [TICK, _] if due == 1 && has.repeats > 0 => Some(Told::Basic),
        [TICK, _] if before.mode.number() != after.mode.number() && has.repeats > 0 => {
            let to = after.mode.number();
            Some(Told::Kept { to })
        }
        _ => None,
    }
}

/// What a flight has met: the answers to greetings by the mode, and what became of
/// messages.
#[derive(Default)]
struct Met {
    answers: BTreeSet<(u8, u8)>,
    told: BTreeSet<Told>,
}

impl Met {
    /// Notes what a frame has got, between two states.
    fn note(&mut self, frame: &[u8], got: Result<Report, u8>, before: &State, after: &State) {
        let answer = got.map_or_else(|refusal| refusal, |report| report.answer);
        if frame.first() == Some(&GREETING) {
            self.answers.insert((before.mode.number(), answer));
        }
        if let (0, Ok(report)) = (answer, got) {
            self.told.extend(told(frame, report.beacon, before, after));
        }
    }
}

#[test]
fn flights_by_the_table_meet_it_all() {
    let mut met = Met::default();
    for seed in 0..100 {
        let mut rng = Rng::new(seed);
        let mut stream = Stream::new(Maker::Structured);
        let mut state = State::fresh();
        state.antennas = true;
        for _ in 0..6_000 {
            let (frame, room) = stream.next(&mut rng);
            let before = state.clone();
            let got = step::step(&mut state, &frame, room.into());
            met.note(&frame, got, &before, &state);
        }
    }
    let answers = [0, 2, 6, 7, 8, 9];
    let wanted = [0, 1, 2].map(|mode| answers.map(|answer| (mode, answer)));
    // None gets 10.
    assert_eq!(met.answers, BTreeSet::from_iter(wanted.concat()));
    let mut wanted = all_told();
    wanted.extend([1, 2].map(|to| Told::Kept { to }));
    let missing: Vec<_> = wanted.difference(&met.told).collect();
    assert!(missing.is_empty(), "not met: {missing:?}");
}

/// All that becomes of a message in RECOVERY and SAFE.
fn all_told() -> BTreeSet<Told> {
    BTreeSet::from([
        Told::Brought,
        Told::Replaced,
        Told::ClearedByRepeats,
        Told::ClearedByLength,
        Told::Sent(2),
        Told::Sent(1),
        Told::Sent(0),
        Told::UsedUp,
        Told::Basic,
    ])
}

#[test]
fn starts_have_messages_of_every_length_in_every_mode() {
    let mut rng = Rng::new(1);
    let mut met = BTreeSet::new();
    for _ in 0..20_000 {
        let state = images::state(&mut rng);
        let Message {
            length, repeats, ..
        } = state.message;
        met.insert((state.mode.number(), usize::from(length), repeats));
    }
    for mode in [0, 1, 2] {
        for length in 0..=message::BYTES {
            for repeats in [0, 1, 2, 255] {
                let wanted = (mode, length, repeats);
                assert!(met.contains(&wanted), "not met: {wanted:?}");
            }
        }
    }
}

/// The faults of a message: of a text the first byte that is not of the alphabet, or
/// else the spaces that are out of place.
fn faults(message: &Message) -> BTreeSet<Fault> {
    let length = usize::from(message.length);
    let Some((text, filler)) = message.bytes.split_at_checked(length) else {
        return BTreeSet::from([Fault::Length]);
    };
    let set = (length..).zip(filler).filter(|(_, byte)| **byte != 0);
    let mut found: BTreeSet<Fault> = set.map(|(place, _)| Fault::Filler(place)).collect();
    let alone = |byte: &u8| *byte != b' ' && morse::check(&[*byte]).is_err();
    found.extend(text.iter().position(alone).map(Fault::Byte));
    if morse::check(text) == Err(13) {
        let space = |place: &usize| {
            let before = place.checked_sub(1).map(|place| text[place]);
            let last = place + 1 == length;
            text[*place] == b' ' && (last || before.is_none_or(|byte| byte == b' '))
        };
        found.extend((0..length).filter(space).map(Fault::Space));
    }
    found
}

/// Each fault in each place that it can have.
fn all_faults() -> BTreeSet<Fault> {
    let lengths = 0..=message::BYTES;
    lengths.flat_map(messages::faults).collect()
}

#[test]
fn a_message_with_a_fault_has_it() {
    let mut rng = Rng::new(1);
    for length in 0..=message::BYTES {
        for fault in messages::faults(length) {
            let good = messages::of_length(&mut rng, 1, length);
            assert!(good.in_range(), "{good:?}");
            let bad = messages::with(&mut rng, good, fault);
            assert!(faults(&bad).contains(&fault), "{fault:?}: {bad:?}");
            assert!(!bad.in_range(), "{fault:?}: {bad:?}");
        }
    }
}

#[test]
fn frames_and_images_have_messages_with_every_fault() {
    let mut rng = Rng::new(1);
    let (mut in_frames, mut in_images) = (BTreeSet::new(), BTreeSet::new());
    let kind = KINDS.iter().find(|kind| kind.byte == GREETING);
    let kind = kind.expect("it is in the table");
    let mut stream = Stream::new(Maker::Structured);
    for _ in 0..200_000 {
        let frame = stream.of_kind(&mut rng, kind);
        if let [_, _, _, _, repeats, length, text @ ..] = &frame[..] {
            in_frames.extend(faults(&Message {
                repeats: *repeats,
                length: *length,
                bytes: text.try_into().expect("sixteen bytes"),
            }));
        }
        let bytes = images::damaged(&mut rng);
        if bytes.len() == image::BYTES {
            let text = &bytes[image::at::TEXT..image::at::ENDS];
            in_images.extend(faults(&Message {
                repeats: bytes[image::at::REPEATS],
                length: bytes[image::at::LENGTH],
                bytes: text.try_into().expect("sixteen bytes"),
            }));
        }
    }
    let missing: Vec<_> = all_faults().difference(&in_frames).cloned().collect();
    assert!(missing.is_empty(), "not met in frames: {missing:?}");
    let missing: Vec<_> = all_faults().difference(&in_images).cloned().collect();
    assert!(missing.is_empty(), "not met in images: {missing:?}");
}

/// What a tick in which the mode changes makes due: it stood before a beacon in the old
/// mode, in the new one, or in both.
#[derive(PartialEq, Eq, PartialOrd, Ord, Debug)]
struct CrossedAsDue {
    to: u8,
    count: u16,
    due: u8,
}

#[test]
fn messages_that_run_out_meet_it_all() {
    let mut rng = Rng::new(1);
    let (mut met, mut crossed) = (Met::default(), BTreeSet::new());
    for _ in 0..60_000 {
        let (mut state, shots) = sending::flight(&mut rng);
        for (frame, room) in shots {
            let before = state.clone();
            let got = step::step(&mut state, &frame, room.into());
            met.note(&frame, got, &before, &state);
            if before.mode != state.mode && before.message.text().is_some() {
                let (to, count) = (state.mode.number(), before.beacon + 1);
                let due = got.map_or(0, |report| report.beacon);
                crossed.insert(CrossedAsDue { to, count, due });
            }
        }
    }
    let wanted = all_told();
    let missing: Vec<_> = wanted.difference(&met.told).collect();
    assert!(missing.is_empty(), "not met: {missing:?}");
    for (to, count, due) in [
        (1, 60, 0),
        (1, 300, 1),
        (2, 60, 3),
        (2, 60, 2),
        (2, 300, 3),
        (2, 300, 2),
    ] {
        let wanted = CrossedAsDue { to, count, due };
        assert!(crossed.contains(&wanted), "not met: {wanted:?}");
    }
}

/// What a group makes of greetings: mode, origin, repeats, fault and answer.
type Sending = (u8, u8, u8, Option<Fault>, u8);

/// What a group makes of extended texts: the message's length, the room, the answer.
type Saying = (Option<u8>, usize, u8);

thread_local! {
    static SENDINGS: RefCell<BTreeSet<Sending>> = const { RefCell::new(BTreeSet::new()) };
    static SAYINGS: RefCell<BTreeSet<Saying>> = const { RefCell::new(BTreeSet::new()) };
}

/// The model's step; notes what is sent.
fn noted_step(image: &mut [u8], frame: &[u8], room: &mut [u8]) -> u8 {
    let mode = image::load(image).map(|state| state.mode.number());
    let answer = model::calls::step(image, frame, room);
    if let (Some(mode), &[GREETING, origin, _, _, repeats, length, ref text @ ..]) = (mode, frame) {
        let message = Message {
            repeats,
            length,
            bytes: text.try_into().expect("sixteen bytes"),
        };
        let fault = faults(&message).pop_first();
        let sending = (mode, origin, repeats, fault, answer);
        SENDINGS.with_borrow_mut(|met| met.insert(sending));
    }
    answer
}

/// The model's extended text; notes in what room it is asked for.
fn noted_text(image: &[u8], text: &mut [u8]) -> (u8, usize) {
    let length = image::load(image).map(|state| state.message.length);
    let (answer, count) = model::calls::beacon_extended(image, text);
    SAYINGS.with_borrow_mut(|met| met.insert((length, text.len(), answer)));
    (answer, count)
}

/// Runs a group on the model alone, with what it does noted.
fn note_group(group: &str) {
    let noting = Calls {
        step: noted_step,
        beacon_extended: noted_text,
        ..MODEL
    };
    common::run(group, &[noting, MODEL]).expect("no difference");
}

#[test]
fn greetings_about_every_limit_get_every_answer_for_every_reason() {
    note_group("greetings about every limit");
    let met = SENDINGS.take();
    for mode in [0, 1, 2] {
        for repeats in [0, 1, 255] {
            for (origin, answers) in [(0, &[6][..]), (1, &[0, 8, 9]), (2, &[7]), (3, &[6])] {
                for answer in answers {
                    let wanted = (mode, origin, repeats, None, *answer);
                    assert!(met.contains(&wanted), "not met: {wanted:?}");
                }
                for fault in all_faults() {
                    let wanted = (mode, origin, repeats, Some(fault), 6);
                    assert!(met.contains(&wanted), "not met: {wanted:?}");
                }
            }
        }
    }
}

#[test]
fn extended_beacons_are_asked_for_in_every_room() {
    note_group("extended beacons in every room");
    let met = SAYINGS.take();
    for room in 0..=34 {
        for length in 0..=16_u8 {
            let need = 17 + usize::from(length);
            let answer = match length {
                0 => 21,
                _ if room < need => 14,
                _ => 0,
            };
            let wanted = (Some(length), room, answer);
            assert!(met.contains(&wanted), "not met: {wanted:?}");
        }
    }
    for room in [0, 16, 17, 33] {
        assert!(met.contains(&(None, room, 1)), "no image that is none");
    }
}
