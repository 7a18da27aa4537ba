//! Two craft with the same frames but for the battery's readings, which are as high or
//! higher on the second.

use super::{fly, Verdict};
use crate::pairs;
use crate::rng::Rng;
use crate::sides::Calls;
use crate::two_craft;
use model::{image, State};

/// Pairs of flights from the fresh start, of which the way through DEPLOY_WAIT is flown once:
/// each craft on both sides, and after every frame what is promised of the second.
pub fn two_craft(sides: &[Calls; 2], rng: &mut Rng) -> Verdict {
    let fresh = image::save(&State::fresh());
    let (mut made, start) = fly(sides, &fresh, pairs::lead_in())?;
    let state = pairs::start();
    while made < 1_500_000 {
        let legs = pairs::flight(rng, &state);
        made += two_craft::fly(sides, &start, legs)?;
    }
    Ok(made)
}
