//! Room for a text's units, set aside before the text is known.

use super::{call, Verdict};
use crate::compare::{hex, WIDEST};
use crate::rng::Rng;
use crate::sides::Calls;
use crate::texts;
use model::morse;

/// Texts of every sort and every length, up to some that are too long, in the room set
/// aside for their length and in others.
pub fn texts_in_their_room(sides: &[Calls; 2], rng: &mut Rng) -> Verdict {
    let mut made = 0;
    while made < 1_000_000 {
        for length in 0..=70 {
            for (text, answer) in texts::of_every_sort(rng, length) {
                made += in_rooms(sides, rng, &text, answer)?;
            }
        }
    }
    Ok(made)
}

/// Keys a text in the widest room; in the room set aside for it, a byte less and a byte
/// more; in what it needs and a byte less; in any shorter and in any longer one.
///
/// Whatever the two sides agree on: the text gets the answer that it is made for, needs no
/// more than the room set aside, or all of it if it is zeros, and is answered 14 only where
/// there is less than it needs.
fn in_rooms(sides: &[Calls; 2], rng: &mut Rng, text: &[u8], answer: u8) -> Verdict {
    let key = |room: usize| {
        let keyed = call(sides, |calls| calls.key, text, room)?;
        Ok::<_, String>((keyed.answer, keyed.count))
    };
    // A text that is too long gets the room of the longest.
    let most = morse::most_units(text.len().min(morse::TEXT_BYTES));
    let (given, need) = key(WIDEST)?;
    let as_promised = match answer {
        0 if text.iter().all(|byte| *byte == b'0') => need == most,
        0 => need <= most,
        _ => need == 0,
    };
    if given != answer || !as_promised {
        let told = format!("answer {given}, {need} units, {most} set aside");
        return Err(format!("input:   {}\n{told}", hex(text)));
    }
    let rooms = [
        most.saturating_sub(1),
        most,
        most + 1,
        need.saturating_sub(1),
        need,
        rng.below(most + 1),
        most + rng.below(WIDEST - most + 1),
    ];
    for room in rooms {
        let wanted = match answer {
            0 if room < need => (14, 0),
            _ => (answer, need),
        };
        let given = key(room)?;
        if given != wanted {
            let told = format!("answer and count {given:?}, and not {wanted:?}");
            return Err(format!("input:   {} (room {room})\n{told}", hex(text)));
        }
    }
    Ok(1 + rooms.len() as u64)
}
