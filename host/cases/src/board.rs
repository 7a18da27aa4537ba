//! The image that a case starts from, on any side.

use crate::{Case, Result};

/// What leads a side to an image, with the arguments and answers of `include/ems.h`.
#[derive(Clone, Copy)]
pub struct Board {
    /// The bytes of an image.
    pub image_bytes: usize,
    /// `ems_fresh`
    pub fresh: fn(&mut [u8]) -> u8,
    /// `ems_step`
    pub step: fn(&mut [u8], &[u8], &mut [u8]) -> u8,
}

/// The bytes of a report.
pub(crate) const REPORT: usize = 11;
/// What stands in a room before a call, there and behind its end.
pub(crate) const BEFORE: u8 = 0xA5;
/// The bytes behind a room's end that are looked at too.
pub(crate) const BEHIND: usize = 2 * REPORT;

impl Board {
    /// The image after the frames of `from`, as `image` says that it is no good.
    pub(crate) fn start(&self, case: &Case) -> Result<Vec<u8>> {
        let mut image = vec![0; self.image_bytes];
        (self.fresh)(&mut image);
        let from = case.one("from")?;
        for frame in from.frames()? {
            let answer = (self.step)(&mut image, &frame, &mut [0; REPORT]);
            if !has_report(answer) {
                return Err(from.wrong(&format!("done: {frame:02X?} is answered with {answer}")));
            }
        }
        if let Some(line) = case.optional("image")? {
            match line.value()? {
                "short" => image.truncate(self.image_bytes - 1),
                "damaged" => image.fill(0xFF),
                _ => return Err(line.wrong("short or damaged")),
            }
        }
        Ok(image)
    }
}

/// Whether a step that gave this answer has written a report.
pub(crate) fn has_report(answer: u8) -> bool {
    matches!(answer, 0 | 8..=10)
}
