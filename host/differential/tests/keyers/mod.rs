//! Keyers that need another room, or judge it otherwise, in ways that look right.

use differential::sides::Counted;
use model::{calls, morse};

/// What each does, and the keyer.
pub const KEYERS: [(&str, Counted); 18] = [
    ("keys a gap behind the last sign", |text, room| {
        keyed(text, room, |text| match text {
            [] => Vec::new(),
            _ => [&right(text)[..], &[0; 3]].concat(),
        })
    }),
    ("keys a zero as six dashes", |text, room| {
        keyed(text, room, |text| {
            spelled(text, 3, 7, |sign| match sign {
                b'0' => [&right(b"0")[..], &[0, 1, 1, 1]].concat(),
                _ => right(&[sign]),
            })
        })
    }),
    ("keys a zero as four dashes", |text, room| {
        keyed(text, room, |text| {
            spelled(text, 3, 7, |sign| match sign {
                b'0' => right(b"0")[4..].to_vec(),
                _ => right(&[sign]),
            })
        })
    }),
    ("keys a comma as seven marks", |text, room| {
        keyed(text, room, |text| {
            spelled(text, 3, 7, |sign| match sign {
                b',' => [&right(b",")[..], &[0, 1]].concat(),
                _ => right(&[sign]),
            })
        })
    }),
    ("has a gap of 4 between signs", |text, room| {
        keyed(text, room, |text| {
            spelled(text, 4, 7, |sign| right(&[sign]))
        })
    }),
    // The shortest of those that make a space take more than a zero.
    ("has a gap of 26 between words", |text, room| {
        keyed(text, room, |text| {
            spelled(text, 3, 26, |sign| right(&[sign]))
        })
    }),
    ("wants room for the longest text", |text, room| {
        judged(text, room, |_, _, room| room < 1_405)
    }),
    ("wants the room set aside for a text", |text, room| {
        judged(text, room, |characters, _, room| {
            room < morse::most_units(characters)
        })
    }),
    ("wants a byte more than it needs", |text, room| {
        judged(text, room, |_, need, room| room < need + 1)
    }),
    ("has 20 units for a character", |text, room| {
        judged(text, room, |characters, need, _| need > 20 * characters)
    }),
    ("has 1,404 units for a text", |text, room| {
        judged(text, room, |_, need, _| need > 1_404)
    }),
    (
        "looks at the room before the bytes",
        |text, room| match calls::key(text, room) {
            (12 | 13, _) if room.len() < morse::most_units(text.len()) => (14, 0),
            given => given,
        },
    ),
    (
        "keys as much as there is room for",
        |text, room| match calls::key(text, room) {
            (14, _) => {
                room.copy_from_slice(&right(text)[..room.len()]);
                (0, room.len())
            }
            given => given,
        },
    ),
    (
        "counts the units that there is no room for",
        |text, room| match calls::key(text, room) {
            (14, _) => (14, right(text).len()),
            given => given,
        },
    ),
    ("counts the room", |text, room| {
        match calls::key(text, room) {
            (0, _) => (0, room.len()),
            given => given,
        }
    }),
    (
        "counts the units with the key down",
        |text, room| match calls::key(text, room) {
            (0, count) => (0, room[..count].iter().filter(|unit| **unit == 1).count()),
            given => given,
        },
    ),
    ("refuses 64 characters", |text, room| match text.len() {
        64 => (11, 0),
        _ => calls::key(text, room),
    }),
    ("keys 65 characters as 64", |text, room| match text.len() {
        65 => calls::key(&text[..64], room),
        _ => calls::key(text, room),
    }),
];

/// The right units of a text, none if it is refused.
fn right(text: &[u8]) -> Vec<u8> {
    morse::key(text).unwrap_or_default()
}

/// A keyer of other units.
fn keyed(text: &[u8], room: &mut [u8], units: fn(&[u8]) -> Vec<u8>) -> (u8, usize) {
    if let Err(refusal) = morse::check(text) {
        return (refusal, 0);
    }
    let units = units(text);
    match room.get_mut(..units.len()) {
        Some(front) => {
            front.copy_from_slice(&units);
            (0, units.len())
        }
        None => (14, 0),
    }
}

/// A text's units, with such gaps between signs and between words, and such signs.
fn spelled(text: &[u8], signs: usize, words: usize, sign: fn(u8) -> Vec<u8>) -> Vec<u8> {
    let word = |word: &[u8]| {
        let own: Vec<_> = word.iter().map(|byte| sign(*byte)).collect();
        own.join(&vec![0; signs][..])
    };
    let own: Vec<_> = text.split(|byte| *byte == b' ').map(word).collect();
    own.join(&vec![0; words][..])
}

/// A keyer of the right units, for which the room is too short where a rule says so of the
/// text's characters, the units that it needs, and the room's length.
fn judged(text: &[u8], room: &mut [u8], short: fn(usize, usize, usize) -> bool) -> (u8, usize) {
    match morse::key(text) {
        Ok(units) if short(text.len(), units.len(), room.len()) => (14, 0),
        _ => calls::key(text, room),
    }
}
