//! Whole passes: any, stopped at every place in every way, in every room; and the
//! library's by themselves, beside its single steps and cut in two.

use super::Verdict;
use crate::compare::{self, Passed};
use crate::images;
use crate::passes;
use crate::rng::Rng;
use crate::shrink::{tell_pass, Pass};
use crate::sides::Calls;
use model::{image, report};

/// Makes a pass on both sides, or tells.
pub(super) fn pass(sides: &[Calls; 2], start: &[u8], pass: Pass) -> Result<Passed, String> {
    let made = |start: &[u8], frames: &[u8], room| compare::pass(sides, start, frames, room);
    let passed = made(start, &pass.0.concat(), pass.1.into());
    passed.map_err(|_| tell_pass(start, pass, ["library", "model"], made))
}

/// Passes from any state in range, and from images that are damaged.
pub fn any_passes(sides: &[Calls; 2], rng: &mut Rng) -> Verdict {
    let mut made = 0;
    while made < 600_000 {
        let (start, case) = passes::case(rng);
        pass(sides, &start, case)?;
        made += 1;
    }
    Ok(made)
}

/// All that is refused with 4 to 7, and every frame cut off, behind none to three
/// frames that get a report and before none to two, in rooms about the end of the
/// last report and of the next.
pub fn stops(sides: &[Calls; 2], rng: &mut Rng) -> Verdict {
    let mut made = 0;
    // What stops a pass, with how many frames stand behind it at most.
    let cut_off = passes::TAILS.iter().map(|piece| (piece, 0));
    let refused = passes::REFUSED.iter().map(|piece| (piece, 2));
    let all: Vec<(&Vec<u8>, usize)> = cut_off.chain(refused).collect();
    for _ in 0..60 {
        for &(stopper, most) in &all {
            for before in 0..=3 {
                for behind in 0..=most {
                    let state = images::state(rng);
                    let mut pieces = passes::reported(rng, state.last, before);
                    pieces.push(stopper.clone());
                    pieces.extend(passes::reported(rng, state.last, behind));
                    let ends = [before, before + 1].map(|reports| report::BYTES * reports);
                    for room in ends
                        .into_iter()
                        .flat_map(|end| end.saturating_sub(1)..=end + 1)
                    {
                        let case = (pieces.clone(), room as u8);
                        pass(sides, &image::save(&state), case)?;
                        made += 1;
                    }
                }
            }
        }
    }
    Ok(made)
}

/// Every room up to more than any pass needs.
pub fn pass_rooms(sides: &[Calls; 2], rng: &mut Rng) -> Verdict {
    let mut made = 0;
    for room in 0..compare::REPLIES {
        for _ in 0..1_500 {
            let state = images::state(rng);
            let (pieces, _) = passes::any(rng, state.last);
            pass(sides, &image::save(&state), (pieces, room as u8))?;
            made += 1;
        }
    }
    Ok(made)
}

/// The library's pass beside its own single steps in order, and beside two passes,
/// cut at every boundary up to where it stops.
pub fn passes_in_parts(sides: &[Calls; 2], rng: &mut Rng) -> Verdict {
    let mut made = 0;
    while made < 1_000_000 {
        let state = images::state(rng);
        let start = image::save(&state);
        let case = passes::any(rng, state.last);
        let parts =
            |start: &[u8], frames: &[u8], room| compare::parts(&sides[0], start, frames, room);
        match parts(&start, &case.0.concat(), case.1.into()) {
            // One at once, one for each step, two for each place it is cut at.
            Ok(whole) => made += 3 + 3 * whole.reported as u64,
            Err(_) => return Err(tell_pass(&start, case, ["at once", "in parts"], parts)),
        }
    }
    Ok(made)
}
