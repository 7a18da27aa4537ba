//! What comes of a whole pass.

use crate::{Report, REPORT_BYTES};

/// The bytes of the shortest frame.
const SHORTEST: usize = 2;

/// The reports of a pass, and why it stopped.
#[derive(Clone, Debug, PartialEq, Eq)]
pub struct Passed {
    /// A report for each frame, up to the one that the pass stopped before.
    pub reports: Vec<Report>,
    /// Why it stopped: [`DONE`](crate::answer::DONE) where no bytes are left,
    /// [`SHORT_ROOM`](crate::answer::SHORT_ROOM) where there is no room for the next
    /// report, or what the next frame is refused with.
    pub answer: u8,
}

impl Passed {
    /// Bytes of reply room that these frames never run out of.
    pub const fn room_for(frames: &[u8]) -> usize {
        frames.len().div_ceil(SHORTEST) * REPORT_BYTES
    }
}
