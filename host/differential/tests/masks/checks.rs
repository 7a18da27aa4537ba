//! Check 1 where it takes masks that are not those of the modules, in every call that has
//! it.

use differential::masks::{masks_of, MASKS};
use differential::sides::{Calls, MODEL};
use model::{calls, image};

/// Whether the masks that are kept are taken for those that the modules have.
type Agree = fn([u8; 3], [u8; 3]) -> bool;

/// What a check does, and a side with it, by when it finds that masks agree.
macro_rules! takes {
    ($name:literal, $agree:expr) => {
        (
            $name,
            Calls {
                step: |image, frame, room| {
                    let mut own = mended(image, $agree);
                    let answer = calls::step(&mut own, frame, room);
                    write(image, own, matches!(answer, 0 | 8..=10));
                    answer
                },
                step_books: |image, frame, room, books| {
                    let mut own = mended(image, $agree);
                    let answer = calls::step_books(&mut own, frame, room, books);
                    write(image, own, matches!(answer, 0 | 8..=10));
                    answer
                },
                pass: |image, frames, room| {
                    let mut own = mended(image, $agree);
                    let (answer, reported) = calls::pass(&mut own, frames, room);
                    write(image, own, reported > 0);
                    (answer, reported)
                },
                modules_on: |image, _| calls::modules_on(&mended(image, $agree)),
                beacon_basic: |image, text| calls::beacon_basic(&mended(image, $agree), text),
                beacon_complete: |image, text| calls::beacon_complete(&mended(image, $agree), text),
                beacon_extended: |image, text| calls::beacon_extended(&mended(image, $agree), text),
                ..MODEL
            },
        )
    };
}

/// What each does, and a side that does.
pub const TAKEN: [(&str, Calls); 14] = [
    takes!("looks at no mask", |_, _| true),
    takes!("doesn't look at the requested mask", |kept, right| {
        kept[1..] == right[1..]
    }),
    takes!("doesn't look at the on mask", |kept, right| {
        (kept[0], kept[2]) == (right[0], right[2])
    }),
    takes!("doesn't look at the failed mask", |kept, right| {
        kept[..2] == right[..2]
    }),
    takes!("looks at the requested mask alone", |kept, right| {
        kept[0] == right[0]
    }),
    takes!("looks at the on mask alone", |kept, right| {
        kept[1] == right[1]
    }),
    takes!("looks at the failed mask alone", |kept, right| {
        kept[2] == right[2]
    }),
    takes!("takes masks that say more", |kept, right| {
        kept.iter()
            .zip(right)
            .all(|(kept, right)| kept & right == right)
    }),
    takes!("takes masks that say less", |kept, right| {
        kept.iter()
            .zip(right)
            .all(|(kept, right)| kept | right == right)
    }),
    takes!("doesn't look at module 0", |kept, right| {
        kept.map(|mask| mask & 0xFE) == right.map(|mask| mask & 0xFE)
    }),
    takes!("doesn't look at module 7", |kept, right| {
        kept.map(|mask| mask & 0x7F) == right.map(|mask| mask & 0x7F)
    }),
    takes!("looks at the mission four alone", |kept, right| {
        kept.map(|mask| mask & 0xD8) == right.map(|mask| mask & 0xD8)
    }),
    takes!("goes by the ones of each mask", |kept, right| {
        kept.map(u8::count_ones) == right.map(u8::count_ones)
    }),
    takes!("goes by the sum of the masks", |kept, right| {
        let sum = |masks: [u8; 3]| masks.into_iter().map(u32::from).sum::<u32>();
        sum(kept) == sum(right)
    }),
];

/// An image with the masks that its modules have, if its own are taken for them.
fn mended(image: &[u8], agree: Agree) -> Vec<u8> {
    let mut own = image.to_vec();
    if own.len() == image::BYTES {
        let right = masks_of(&own);
        if agree(MASKS.map(|place| own[place]), right) {
            for (place, mask) in MASKS.into_iter().zip(right) {
                own[place] = mask;
            }
        }
    }
    own
}

/// Writes an image, if there is a report.
fn write(image: &mut [u8], next: Vec<u8>, reported: bool) {
    if reported {
        image.copy_from_slice(&next);
    }
}
