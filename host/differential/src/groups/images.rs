//! Images: the fresh one, and those in and out of range.

use super::{asked, fly, Verdict, ROOM};
use crate::compare;
use crate::frames::{Maker, Stream};
use crate::images;
use crate::rng::Rng;
use crate::sides::Calls;
use model::table::{KINDS, TICK};

/// The fresh start into every length up to the longest.
pub fn fresh_starts(sides: &[Calls; 2], rng: &mut Rng) -> Verdict {
    for length in 0..=compare::LONGEST {
        let before = rng.bytes(compare::LONGEST);
        let [library, model] = sides.map(|calls| {
            let mut after = before.clone();
            let answer = (calls.fresh)(&mut after[..length]);
            (answer, after)
        });
        if library != model {
            return Err(format!("length {length}: {library:?}, model {model:?}"));
        }
    }
    Ok(compare::LONGEST as u64 + 1)
}

/// Images that differ from a good one in one byte, by every value: a tick's
/// step, and all that is asked.
pub fn image_bytes(sides: &[Calls; 2], rng: &mut Rng) -> Verdict {
    let mut made = 0;
    for _ in 0..50 {
        let good = images::good(rng);
        for place in 0..good.len() {
            for value in 0..=u8::MAX {
                let mut bytes = good.clone();
                bytes[place] = value;
                made += fly(sides, &bytes, vec![(vec![TICK, value], ROOM)])?.0;
            }
            made += asked(sides, rng, &good)?;
        }
    }
    Ok(made)
}

/// Every number of a mode and of each end up to some beyond the last, then others,
/// and every number of a module, with the masks that it has and with those of another:
/// a tick's step.
pub fn codes(sides: &[Calls; 2], rng: &mut Rng) -> Verdict {
    let mut made = 0;
    let mut step = |bytes: &[u8], shorts: u8| -> Result<(), String> {
        made += fly(sides, bytes, vec![(vec![TICK, shorts], ROOM)])?.0;
        Ok(())
    };
    let beyond = (100_000..1 << 24).step_by(997);
    for number in (0..100_000).chain(beyond) {
        for place in 0..4 {
            let mut bytes = images::good(rng);
            images::set_end(&mut bytes, place, number);
            step(&bytes, rng.byte())?;
        }
        let mut bytes = images::good(rng);
        images::set_mode(&mut bytes, number);
        images::clear_counts(&mut bytes);
        step(&bytes, 0)?;
    }
    for number in 0..=u16::MAX {
        for set in [images::set_module, images::set_module_alone] {
            let mut bytes = images::good(rng);
            set(&mut bytes, rng.below(8), number);
            step(&bytes, rng.byte())?;
        }
    }
    Ok(made)
}

/// Images in and out of range, of any length: a frame of any kind, and all that is
/// asked.
pub fn damaged_images(sides: &[Calls; 2], rng: &mut Rng) -> Verdict {
    let mut made = 0;
    while made < 1_000_000 {
        let bytes = images::damaged(rng);
        let kind = rng.one(&KINDS);
        let frame = Stream::new(Maker::Structured).of_kind(rng, kind);
        made += fly(sides, &bytes, vec![(frame, ROOM)])?.0;
        made += asked(sides, rng, &bytes)?;
    }
    Ok(made)
}
