//! Greetings, and seconds with a message, that go wrong in ways that look right.

use super::seconds::Step;
use model::frame::{self, Body};
use model::image;
use model::message::{self, Message};
use model::report;
use model::state::{Mode, BASIC_TICKS, COMPLETE_TICKS};
use model::table::{FROM_PAYLOAD, GREETING};
use model::{calls, morse, State};

/// What each does with a greeting, and the step.
pub const TAKEN: [(&str, Step); 12] = [
    ("asks who sends it first", |image, frame, room| {
        read_as(image, frame, room, |origin, message| {
            if origin == FROM_PAYLOAD {
                *message = Message::NONE;
            }
        })
    }),
    ("looks at no filler", |image, frame, room| {
        read_as(image, frame, room, |_, message| {
            let filler = message.bytes.iter_mut().skip(message.length.into());
            filler.for_each(|byte| *byte = 0);
        })
    }),
    ("takes 17 characters", |image, frame, room| {
        read_as(image, frame, room, |_, message| {
            if message.length == 17 {
                message.length = 16;
            }
        })
    }),
    ("takes small letters", |image, frame, room| {
        read_as(image, frame, room, |_, message| {
            message.bytes.make_ascii_uppercase();
        })
    }),
    ("takes spaces anywhere", |image, frame, room| {
        read_as(image, frame, room, |_, message| {
            if message.text().map(morse::check) == Some(Err(13)) {
                let spaces = message.bytes.iter_mut().filter(|byte| **byte == b' ');
                spaces.for_each(|byte| *byte = b'E');
            }
        })
    }),
    ("excuses one that clears", |image, frame, room| {
        read_as(image, frame, room, |_, message| *message = message.kept())
    }),
    (
        "keeps the repeats of one with no text",
        |image, frame, room| {
            greeted(image, frame, room, |message, _, after| {
                if message.length == 0 {
                    after.message.repeats = message.repeats;
                }
            })
        },
    ),
    (
        "keeps the text of one with no repeats",
        |image, frame, room| {
            greeted(image, frame, room, |message, _, after| {
                if message.repeats == 0 {
                    after.message = message;
                }
            })
        },
    ),
    ("leaves the old one at repeats 0", |image, frame, room| {
        greeted(image, frame, room, |message, before, after| {
            if message.repeats == 0 {
                after.message = before.message;
            }
        })
    }),
    ("adds the repeats to those left", |image, frame, room| {
        greeted(image, frame, room, |_, before, after| {
            let left = before.message.repeats;
            if after.message != Message::NONE {
                after.message.repeats = after.message.repeats.saturating_add(left);
            }
        })
    }),
    ("uses up no serial", |image, frame, room| {
        greeted(image, frame, room, |_, before, after| {
            after.last = before.last;
        })
    }),
    ("waits for SAFE", |image, frame, room| {
        let before = image::load(image);
        let answer = calls::step(image, frame, room);
        match (before, image::load(image)) {
            (Some(before), Some(after))
                if answer == 0 && frame[0] == GREETING && after.mode != Mode::Safe =>
            {
                let last = after.last;
                image.copy_from_slice(&image::save(&State { last, ..before }));
                room[5] = 10;
                10
            }
            _ => answer,
        }
    }),
];

/// What each does with a message in a second, and the step.
pub const SENT: [(&str, Step); 8] = [
    ("lets repeats fall in RECOVERY", |image, frame, room| {
        ticked(image, frame, room, |_, after, due| {
            if *due == 1 {
                after.message.sent();
            }
        })
    }),
    (
        "drops the message with its last repeat",
        |image, frame, room| {
            ticked(image, frame, room, |_, after, due| {
                if *due == 3 {
                    after.message = after.message.kept();
                }
            })
        },
    ),
    ("sends it once more", |image, frame, room| {
        ticked(image, frame, room, |_, after, due| {
            if *due == 2 && after.message.text().is_some() {
                *due = 3;
            }
        })
    }),
    ("never lets repeats fall", |image, frame, room| {
        ticked(image, frame, room, |before, after, _| {
            after.message = before.message;
        })
    }),
    ("sends one with no text", |image, frame, room| {
        ticked(image, frame, room, |_, after, due| {
            if *due == 2 && after.message.repeats > 0 {
                after.message.repeats -= 1;
                *due = 3;
            }
        })
    }),
    ("drops the message as SAFE is left", |image, frame, room| {
        ticked(image, frame, room, |before, after, _| {
            if before.mode == Mode::Safe && after.mode == Mode::Recovery {
                after.message = Message::NONE;
            }
        })
    }),
    ("goes by the mode before the tick", |image, frame, room| {
        ticked(image, frame, room, |before, after, due| {
            let fell = before.mode == Mode::Safe && after.mode == Mode::Recovery;
            let multiple = (before.beacon + 1).is_multiple_of(COMPLETE_TICKS);
            if fell && multiple && after.message.sent() {
                after.beacon = 0;
                *due = 3;
            }
        })
    }),
    ("counts on after an extended one", |image, frame, room| {
        ticked(image, frame, room, |before, after, due| {
            if *due == 3 {
                after.beacon = (before.beacon + 1) % BASIC_TICKS;
            }
        })
    }),
];

/// A step that takes a greeting for one with another message, by its origin.
fn read_as(image: &mut [u8], frame: &[u8], room: &mut [u8], rule: fn(u8, &mut Message)) -> u8 {
    let &[GREETING, origin, high, low, repeats, length, ref text @ ..] = frame else {
        return calls::step(image, frame, room);
    };
    let Ok(bytes) = <[u8; message::BYTES]>::try_from(text) else {
        return calls::step(image, frame, room);
    };
    let mut message = Message {
        repeats,
        length,
        bytes,
    };
    rule(origin, &mut message);
    let head = [GREETING, origin, high, low, message.repeats, message.length];
    calls::step(image, &[&head[..], &message.bytes].concat(), room)
}

/// A step after which a rule changes what a greeting that is done has left: of its
/// message, the state before and the state after.
fn greeted(
    image: &mut [u8],
    frame: &[u8],
    room: &mut [u8],
    rule: fn(Message, &State, &mut State),
) -> u8 {
    let before = image::load(image);
    let answer = calls::step(image, frame, room);
    let body = frame::read(frame).map(|frame| frame.body);
    if let (Some(before), Some(mut after), 0, Ok(Body::Greeting(message))) =
        (before, image::load(image), answer, body)
    {
        rule(message, &before, &mut after);
        image.copy_from_slice(&image::save(&after));
    }
    answer
}

/// A step after which a rule changes what a tick outside DEPLOY_WAIT has left: of the
/// state before, the state after and the beacon that is due.
fn ticked(
    image: &mut [u8],
    frame: &[u8],
    room: &mut [u8],
    rule: fn(&State, &mut State, &mut u8),
) -> u8 {
    let before = image::load(image).filter(|state| !state.mode.deploying());
    let answer = calls::step(image, frame, room);
    let body = frame::read(frame).map(|frame| frame.body);
    if let (Some(before), Some(mut after), 0, Ok(Body::Tick(_))) =
        (before, image::load(image), answer, body)
    {
        let due = &mut room[report::BYTES - 1];
        rule(&before, &mut after, due);
        image.copy_from_slice(&image::save(&after));
    }
    answer
}
