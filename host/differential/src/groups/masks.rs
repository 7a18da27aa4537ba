//! Masks kept beside the modules: all that there can be, every bit of them turned,
//! modules that change with them and without, and frames that change them.
//!
//! What is said of each call is looked at on its answer too, whatever the two sides agree
//! on.

use super::passes::pass;
use super::{call, step, Verdict, MODES, ROOM};
use crate::bookkeeping::enter;
use crate::books;
use crate::compare::hex;
use crate::frames::{Maker, Stream};
use crate::images;
use crate::masks::{self, Sort, MASKS, SORTS};
use crate::passes;
use crate::rng::Rng;
use crate::shrink::Shot;
use crate::sides::Calls;
use model::image;
use model::state::Last;
use model::table::KINDS;

/// Every on, off and failed of the eight modules, with every request of them: how many
/// are on.
pub fn every_mask(sides: &[Calls; 2], rng: &mut Rng) -> Verdict {
    let mut made = 0;
    for sorts in all_sorts() {
        let on = sorts.iter().filter(|sort| **sort == Sort::On).count();
        let mut image = images::good(rng);
        for requested in 0..=u8::MAX {
            set_modules(rng, &mut image, sorts, requested);
            count(sides, &image, (0, on))?;
            made += 1;
        }
    }
    Ok(made)
}

/// What each of the eight modules can be, each with each.
pub(super) fn all_sorts() -> impl Iterator<Item = [Sort; 8]> {
    let sort = |all: usize, place: u32| SORTS[all / 3_usize.pow(place) % 3];
    (0..3_usize.pow(8)).map(move |all| std::array::from_fn(|place| sort(all, place as u32)))
}

/// Sets all modules of an image, and their masks.
pub(super) fn set_modules(rng: &mut Rng, image: &mut [u8], sorts: [Sort; 8], requested: u8) {
    for (place, sort) in sorts.into_iter().enumerate() {
        let number = masks::number_of(rng, sort, requested >> place & 1 == 1);
        images::set_module(image, place, number);
    }
}

/// Counts the modules that are on; tells if the answer and the count are others.
fn count(sides: &[Calls; 2], image: &[u8], wanted: (u8, usize)) -> Result<(), String> {
    let counted = call(sides, |calls| calls.modules_on, image, 0)?;
    let given = (counted.answer, counted.count);
    match given == wanted {
        true => Ok(()),
        false => {
            let told = format!("answer and count {given:?}, and not {wanted:?}");
            Err(format!("input:   {}\n{told}", hex(image)))
        }
    }
}

/// Every bit of the three masks turned by itself, and some together, under modules that
/// are on, off and failed in every way: every call that takes an image.
pub fn turned_bits(sides: &[Calls; 2], rng: &mut Rng) -> Verdict {
    let mut made = 0;
    for sorts in all_sorts() {
        let state = images::state(rng);
        let mut good = image::save(&state).to_vec();
        let requested = rng.byte();
        set_modules(rng, &mut good, sorts, requested);
        made += every_call(sides, rng, state.last, &good, true)?;
        let each = (0..24).map(|bit| {
            let [one, two, three, _] = (1_u32 << bit).to_le_bytes();
            [one, two, three]
        });
        let some: Vec<[u8; 3]> = (0..8).map(|_| masks::some_bits(rng)).collect();
        for bits in each.chain(some) {
            let mut turned = good.clone();
            masks::turn(&mut turned, bits);
            made += every_call(sides, rng, state.last, &turned, false)?;
        }
    }
    Ok(made)
}

/// Each module changed from all that it can be, requested or not, to all that it can be:
/// by itself, and with its bits of the masks.
pub fn changed_modules(sides: &[Calls; 2], rng: &mut Rng) -> Verdict {
    let ways = SORTS.map(|sort| [(sort, false), (sort, true)]).concat();
    let mut made = 0;
    while made < 1_000_000 {
        for place in 0..8 {
            for &from in &ways {
                for &to in &ways {
                    let state = images::state(rng);
                    let mut alone = image::save(&state);
                    images::set_module(&mut alone, place, masks::number_of(rng, from.0, from.1));
                    let mut with_masks = alone;
                    let number = masks::number_of(rng, to.0, to.1);
                    images::set_module_alone(&mut alone, place, number);
                    images::set_module(&mut with_masks, place, number);
                    made += every_call(sides, rng, state.last, &alone, from == to)?;
                    made += every_call(sides, rng, state.last, &with_masks, true)?;
                }
            }
        }
    }
    Ok(made)
}

/// Every call that takes an image, of which it is known whether masks and modules agree.
/// Where they do, none is answered with 1, and as many are on as by their numbers; where
/// they don't, all are, whatever else there is to refuse, and none are on.
fn every_call(sides: &[Calls; 2], rng: &mut Rng, last: Last, image: &[u8], agree: bool) -> Verdict {
    let stepped = step(sides, image, shot(rng, last))?;
    let entered = enter(sides, image, shot(rng, last), &books::good(rng))?;
    let passed = pass(sides, image, passes::any(rng, last))?;
    let basic = call(sides, |calls| calls.beacon_basic, image, rng.below(20))?;
    let complete = call(sides, |calls| calls.beacon_complete, image, rng.below(20))?;
    let extended = call(sides, |calls| calls.beacon_extended, image, rng.below(37))?;
    let beacons = [basic.answer, complete.answer, extended.answer];
    let frames = [stepped.answer, entered.answer(), passed.answer];
    let answers = [frames, beacons].concat();
    if answers.iter().any(|answer| (*answer != 1) != agree) {
        return Err(format!("input:   {}\nanswers {answers:?}", hex(image)));
    }
    let [_, on, _] = masks::masks_of(image);
    let wanted = match agree {
        true => (0, on.count_ones() as usize),
        false => (1, 0),
    };
    count(sides, image, wanted)?;
    Ok(7)
}

/// A frame of any kind by the table, with room for its report; or one that is refused by
/// itself, with 2 to 7.
pub(super) fn shot(rng: &mut Rng, last: Last) -> Shot {
    let kind = rng.one(&KINDS);
    let frame = Stream::new(Maker::Structured)
        .after(last)
        .of_kind(rng, kind);
    match rng.below(8) {
        0 => (frame, rng.below(ROOM.into()) as u8),
        1 => (vec![], ROOM),
        2 => (rng.one(&passes::TAILS).clone(), ROOM),
        3 | 4 => (rng.one(&passes::REFUSED).clone(), ROOM),
        _ => (frame, ROOM),
    }
}

/// Short flights from every mode, in which orders, ends, crossings and shorts change the
/// masks.
pub fn frames(sides: &[Calls; 2], rng: &mut Rng) -> Verdict {
    let mut made = 0;
    while made < 1_200_000 {
        let mode = rng.pick(&MODES);
        let mut state = images::state_in(rng, mode);
        state.ends = std::array::from_fn(|_| rng.below(8) as u32);
        let mut stream = Stream::new(Maker::Structured).after(state.last);
        let mut image = image::save(&state).to_vec();
        for _ in 0..10 {
            image = leaves_true(sides, &image, stream.next(rng))?;
            made += 2;
        }
    }
    Ok(made)
}

/// A step after which the masks are true of the modules, its report has them, and as many
/// modules are on: the image.
fn leaves_true(sides: &[Calls; 2], image: &[u8], shot: Shot) -> Result<Vec<u8>, String> {
    let stepped = step(sides, image, shot.clone())?;
    let after = stepped.image().to_vec();
    let masks = masks::masks_of(&after);
    let kept = MASKS.map(|place| after[place]);
    let report = stepped.report();
    let reported = report.map_or(masks, |own| [own.requested, own.on, own.failed]);
    if kept != masks || reported != masks {
        let (before, frame) = (hex(image), hex(&shot.0));
        return Err(format!(
            "a flight from {before}\n  {frame} (room {})\n\
             masks {masks:02X?}, kept {kept:02X?}, reported {reported:02X?}",
            shot.1
        ));
    }
    count(sides, &after, (0, masks[1].count_ones() as usize))?;
    Ok(after)
}
