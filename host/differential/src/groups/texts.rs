//! Texts and units: keyed, read back, and damaged between.

use super::{call, Verdict};
use crate::compare::{self, hex};
use crate::rng::Rng;
use crate::sides::Calls;
use crate::texts;

/// Keys a text in a room of a length, and reads back what comes out.
fn there_and_back(sides: &[Calls; 2], text: &[u8], room: usize, back: usize) -> Verdict {
    let keyed = call(sides, |calls| calls.key, text, room)?;
    if keyed.answer != 0 {
        return Ok(1);
    }
    let read = call(sides, |calls| calls.read, keyed.bytes(), back)?;
    if read.answer == 0 && read.bytes() != text {
        return Err(format!("{} doesn't come back", hex(text)));
    }
    Ok(2)
}

/// All texts of length 0, 1 and 2, over all bytes.
pub fn short_texts(sides: &[Calls; 2], _: &mut Rng) -> Verdict {
    let mut made = there_and_back(sides, &[], 0, 0)?;
    for first in 0..=u8::MAX {
        made += there_and_back(sides, &[first], 60, 2)?;
        for second in 0..=u8::MAX {
            made += there_and_back(sides, &[first, second], 60, 2)?;
        }
    }
    Ok(made)
}

/// Every byte in every place of texts of some lengths: what isn't of the alphabet is
/// refused wherever it stands, and what is comes back.
pub fn every_place(sides: &[Calls; 2], rng: &mut Rng) -> Verdict {
    let mut made = 0;
    for length in [1, 2, 3, 16, 33, 63, 64] {
        let mut text = texts::word(rng, length);
        for place in 0..length {
            let own = text[place];
            for byte in 0..=u8::MAX {
                text[place] = byte;
                made += there_and_back(sides, &text, compare::WIDEST, length)?;
            }
            text[place] = own;
        }
    }
    Ok(made)
}

/// All signs of one to seven marks, those that no byte has among them: each by
/// itself, and any two, in one word and in two.
pub fn every_sign(sides: &[Calls; 2], _: &mut Rng) -> Verdict {
    let signs: Vec<_> = (1..=7).flat_map(texts::signs_of).collect();
    let mut made = 0;
    for first in &signs {
        call(sides, |calls| calls.read, first, 3)?;
        made += 1;
        for second in &signs {
            for gap in [3, 7] {
                let units = [&first[..], &vec![0; gap], second].concat();
                call(sides, |calls| calls.read, &units, 3)?;
                made += 1;
            }
        }
    }
    Ok(made)
}

/// Texts of every sort, in rooms around what they need, and back.
pub fn any_texts(sides: &[Calls; 2], rng: &mut Rng) -> Verdict {
    let mut made = 0;
    while made < 600_000 {
        let text = texts::any(rng);
        let need = model::morse::key(&text).map_or(0, |units| units.len());
        let room = match rng.below(4) {
            0 => need.saturating_sub(1),
            1 => need,
            2 => rng.below(compare::WIDEST),
            _ => compare::WIDEST,
        };
        let back = rng.pick(&[text.len(), text.len().saturating_sub(1), 70]);
        made += there_and_back(sides, &text, room, back)?;
    }
    Ok(made)
}

/// Units of a good text with one place wrong, units of a text too long, and
/// units at random.
pub fn damaged_units(sides: &[Calls; 2], rng: &mut Rng) -> Verdict {
    let mut made = 0;
    while made < 1_000_000 {
        let mut units = model::morse::key(&texts::good(rng)).unwrap_or_default();
        match rng.below(8) {
            0 => {
                let more = model::morse::key(&texts::good(rng)).unwrap_or_default();
                units.extend([0, 0, 0]);
                units.extend(more);
            }
            1 => {
                let length = rng.below(40);
                units = (0..length).map(|_| rng.byte() & 1).collect();
            }
            _ => texts::damage(rng, &mut units),
        }
        call(sides, |calls| calls.read, &units, rng.pick(&[64, 70, 10]))?;
        made += 1;
    }
    Ok(made)
}
