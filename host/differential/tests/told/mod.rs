//! What is told of a fault that is found.

use crate::common::run;
use differential::sides::{Calls, MODEL};

/// What a group says of a faulty side.
pub fn told(group: &str, faulty: Calls) -> String {
    run(group, &[faulty, MODEL]).expect_err("the fault is found")
}

/// The frames of a told flight.
pub fn frames(told: &str) -> usize {
    told.lines().filter(|line| line.starts_with("  ")).count()
}
