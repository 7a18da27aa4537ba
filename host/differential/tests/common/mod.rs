//! What has a name, found by it: a group, or a call that is wrong.

use differential::groups::{Verdict, GROUPS};
use differential::rng::Rng;
use differential::sides::Calls;

/// The one of these that has this name.
pub fn named<T: Copy>(all: &[(&str, T)], name: &str) -> T {
    match all.iter().find(|(own, _)| *own == name) {
        Some((_, found)) => *found,
        None => panic!("nothing is named \"{name}\""),
    }
}

/// What the group of this name makes of two sides.
pub fn run(group: &str, sides: &[Calls; 2]) -> Verdict {
    named(&GROUPS, group)(sides, &mut Rng::new(1))
}
